# shellcheck shell=bash disable=SC2154
# Group `clashes`: a file that would be written is another file of the run, by whatever name it has.

# A folder with the files of a run, and further names for them.
own_folder() {
    rm -rf own
    mkdir -p own/d
    cp "$rec" own/z.rec
    cp "$s" own/s.toml
    cp "$example/attitude.csv" own/f.csv
    ln -s z.rec own/link
    ln own/z.rec own/hard
    ln -s . own/folder
    ln own/s.toml own/s.hard
    ln -s f.csv own/f.link
    "$tmx" packets --settings own/s.toml --report /dev/null --checkpoint own/k --stop-after 20 own/z.rec >/dev/null
    ln own/k own/k.hard
    ln own/z.rec own/beside.new
    ln -s loop own/loop.new
    ln -s unmade own/later
    ln -s folder/later own/last
}

# The name of a trial, the line that is wanted, and a command that is refused: nothing in the folder is made or changed.
clash() {
    own_folder
    stands own >before
    gives "$1" 1 "$2" "$3"
    tell "$1: nothing is touched" "$(stands own | diff before - 2>&1)"
}

# Likewise for split, which may have made files of other applications by then: what is read is as it was.
split_clash() {
    gives "$1" 1 "$2" "$3"
    tell "$1: what is read is as it was" "$(cmp "$rec" own/z.rec; cmp "$s" own/s.toml)"
}

# The name of a trial, a file, and a command that has it as standard error and would write it: the fault's line is behind what it had.
errors_clash() {
    own_folder
    { [ ! -e "$2" ] || cat "$2"; echo "tmx: $2: failed"; } >had
    split_clash "$1" "" "$3"
    tell "$1: the fault's line is behind what it had" "$(cmp had "$2" 2>&1)"
}

# The name of a trial, and a command that is none of these.
no_clash() {
    gives "$1" 0 "" "$2"
    tell "$1: what is read is as it was" "$(cmp "$rec" own/z.rec; cmp "$s" own/s.toml)"
}

clashes() {
    # guards: when-two-places-are-one
    # guards: which-places-of-a-run-clash
    # guards: how-the-place-of-a-name-is-found
    # guards: put-holds-the-octets-or-writes-them
    # guards: no-file-of-the-run-is-overwritten-by-an-applications
    # guards: check_names-and-check_errors-find-the-first-clash
    # guards: what-is-checked-and-opened-before-a-run
    # guards: each-step-has-only-its-own-faults
    local used="$tmx packets --settings own/s.toml" rows="$tmx fields --settings own/s.toml --definition own/f.csv --apid 101"
    names
    report_clashes
    checkpoint_clashes
    stream_clashes
    errors_clashes
    split_clashes
    no_clashes
    one_number
    plan 193
}

report_clashes() {
    local name
    for name in own/./z.rec own/link own/hard own/folder/z.rec own/d/../z.rec; do
        clash "the report over the recording as $name" "tmx: $name: failed" "$used --report $name own/z.rec"
        clash "the report over the recording that is named $name" "tmx: own/z.rec: failed" "$used --report own/z.rec $name"
    done
    clash "the report over the recording in standard input" "tmx: own/hard: failed" "$used --report own/hard <own/z.rec"
    clash "the report over the settings by a hard link" "tmx: own/s.hard: failed" "$used --report own/s.hard own/z.rec"
    clash "the report over the definition by a link" "tmx: own/f.link: failed" "$rows --report own/f.link own/z.rec"
    clash "the report over the checkpoint to go on from" "tmx: own/k.hard: failed" "$used --report own/k.hard --resume own/k own/z.rec"
    clash "the report over the checkpoint that is there" "tmx: own/./k: failed" "$used --report own/./k --checkpoint own/k own/z.rec"
    clash "the report over the checkpoint that is not there" "tmx: own/./c: failed" "$used --report own/./c --checkpoint own/c own/z.rec"
    clash "the report by a link to the checkpoint that is not there" "tmx: own/later: failed" \
        "$used --report own/later --checkpoint own/folder/unmade own/z.rec"
    clash "the report by two links to the checkpoint that is not there" "tmx: own/last: failed" \
        "$used --report own/last --checkpoint own/unmade own/z.rec"
    clash "the report over the checkpoint that is not there, in the folder of the run" "tmx: ./c: failed" \
        "cd own && $tmx packets --settings s.toml --report ./c --checkpoint c z.rec"
    clash "the report by a link to the checkpoint that is not there, in the folder of the run" "tmx: later: failed" \
        "cd own && $tmx packets --settings s.toml --report later --checkpoint unmade z.rec"
    clash "the report over the file of standard output" "tmx: own/hard: failed" "$used --report own/hard $rec >>own/z.rec"
    clash "the report to /dev/stdout, which is a file" "tmx: /dev/stdout: failed" "$used --report /dev/stdout $rec >>own/z.rec"
}

checkpoint_clashes() {
    local name
    for name in own/./z.rec own/link own/hard own/folder/z.rec own/d/../z.rec; do
        clash "the checkpoint over the recording as $name" "tmx: $name: failed" "$used --report own/r --checkpoint $name own/z.rec"
    done
    clash "the checkpoint over the recording in standard input" "tmx: own/hard: failed" "$used --report own/r --checkpoint own/hard <own/z.rec"
    clash "the checkpoint over the settings by a hard link" "tmx: own/s.hard: failed" "$used --report own/r --checkpoint own/s.hard own/z.rec"
    clash "the checkpoint over the definition by a link" "tmx: own/f.link: failed" "$rows --report own/r --checkpoint own/f.link own/z.rec"
    clash "the checkpoint by way of the recording's hard link" "tmx: own/beside: failed" "$used --report own/r --checkpoint own/beside own/z.rec"
    clash "the checkpoint by way of the report" "tmx: own/c: failed" "$used --report own/./c.new --checkpoint own/c own/z.rec"
    clash "the checkpoint by way of a link to itself" "tmx: own/loop: failed" "$used --report own/r --checkpoint own/loop own/z.rec"
    clash "the checkpoint over the file of standard output" "tmx: own/k: failed" "$used --report own/r --checkpoint own/k own/z.rec >>own/k.hard"
    clash "the checkpoint by a link to the report, neither being there" "tmx: own/unmade: failed" "$used --report own/unmade --checkpoint own/last own/z.rec"
}

stream_clashes() {
    local command
    for command in "$used --report own/r" "$tmx extract --settings own/s.toml --report own/r" "$rows --report own/r" \
        "$tmx frames --settings own/s.toml" "$tmx summary --settings own/s.toml"; do
        set -- $command
        clash "$2 behind its recording" "tmx: write failed" "$command own/z.rec >>own/z.rec"
        clash "$2 behind its recording in standard input" "tmx: write failed" "$command <own/hard >>own/z.rec"
    done
    clash "packets behind the settings" "tmx: write failed" "$used --report own/r own/z.rec >>own/s.hard"
    clash "packets behind the checkpoint to go on from" "tmx: write failed" "$used --report own/r --resume own/k own/z.rec >>own/k"
}

# Standard error is a file that is read: a fault's line would be written to it, so there is none.
errors_clashes() {
    local command
    for command in "$used" "$used --report own/r" "$tmx frames --settings own/s.toml" "$tmx summary --settings own/s.toml" \
        "$tmx split --settings own/s.toml --dir own/d"; do
        set -- $command
        clash "$2 ${*:5} with standard error behind the recording" "" "$command own/z.rec 2>>own/z.rec"
        clash "$2 ${*:5} with both streams behind the recording" "" "$command own/z.rec >>own/z.rec 2>&1"
        clash "$2 ${*:5} with standard error behind the settings" "" "$command own/z.rec 2>>own/s.hard"
    done
    clash "frames with standard output closed, and standard error behind the recording" "" "$tmx frames --settings own/s.toml own/z.rec >&- 2>>own/z.rec"
    clash "fields with standard error behind the definition" "" "$rows --report own/r own/z.rec 2>>own/f.link"
    clash "a checkpoint over the recording, and standard error behind it" "" "$used --report own/r --checkpoint own/link own/z.rec 2>>own/z.rec"
    clash "a report over the recording, and standard error behind it" "" "$used --report own/./z.rec own/z.rec 2>>own/hard"
    clash "settings that are missing, and standard error behind the recording" "" "$tmx packets --settings own/none own/z.rec 2>>own/z.rec"
    clash "a checkpoint that is missing, and standard error behind the settings" "" "$used --resume own/none own/z.rec 2>>own/s.toml"
    clash "a checkpoint that is resumed, and standard error behind it" "" "$used --report own/r --resume own/k own/z.rec 2>>own/k"
    errors_clash "a checkpoint over the file of standard error" own/k "$used --checkpoint own/k own/z.rec 2>>own/k.hard"
    errors_clash "split over the file of standard error" own/d/apid-0100.pkt "$tmx split --settings own/s.toml --dir own/d own/z.rec 2>>own/d/apid-0100.pkt"
}

split_clashes() {
    local used="$tmx split --settings own/s.toml --dir own/d" first=own/d/apid-0100.pkt
    own_folder
    ln own/z.rec own/d/apid-0200.pkt
    split_clash "split over its recording" "tmx: own/d/apid-0200.pkt: failed" "$used --report own/r own/d/apid-0200.pkt"
    split_clash "split over its recording by a hard link" "tmx: own/d/apid-0200.pkt: failed" "$used --report own/r own/z.rec"
    split_clash "split over its recording in standard input" "tmx: own/d/apid-0200.pkt: failed" "$used --report own/r <own/z.rec"
    split_clash "split behind its recording where it goes on" "tmx: own/d/apid-0200.pkt: failed" "$used --report own/r --resume own/k own/z.rec"
    own_folder
    ln -s ../z.rec $first
    split_clash "split over its recording by a link" "tmx: $first: failed" "$used --report own/r own/z.rec"
    own_folder
    ln own/s.toml $first
    split_clash "split over its settings" "tmx: $first: failed" "$used --report own/r own/z.rec"
    own_folder
    split_clash "split over its report" "tmx: $first: failed" "$used --report own/folder/d/apid-0100.pkt own/z.rec"
    own_folder
    ln -s ../r $first
    split_clash "split over its report by a link" "tmx: $first: failed" "$used --report own/r own/z.rec"
    own_folder
    split_clash "split over the checkpoint that is not there" "tmx: $first: failed" "$used --report own/r --checkpoint $first own/z.rec"
    own_folder
    split_clash "split over the file beside the checkpoint" "tmx: $first: failed" \
        "ln -s d/apid-0100.pkt own/c.new; $used --report own/r --checkpoint own/c own/z.rec"
    own_folder
    ln -s apid-0100.pkt own/d/apid-0101.pkt
    split_clash "split of two applications to one file" "tmx: own/d/apid-0100.pkt: failed" "$used --report own/r own/z.rec"
    tell "split of two applications to one file: the first has its own packets" "$(is_start own/d/apid-0101.pkt expected/split/apid-0101.pkt || echo no)"
    own_folder
    ln -s apid-0100.pkt own/d/apid-0101.pkt
    split_clash "split of two applications to one file where it goes on" "tmx: own/d/apid-0101.pkt: failed" "$used --report own/r --resume own/k own/z.rec"
}

# Whether a file is a front of another.
is_start() {
    cmp -s -n "$(stat -c %s "$1")" "$1" "$2"
}

no_clashes() {
    own_folder
    no_clash "a checkpoint over the one that is resumed" "$used --report own/r --resume own/k --checkpoint own/k own/z.rec"
    own_folder
    no_clash "a checkpoint over the one that is resumed, by another name" "$used --report own/r --resume own/./k --checkpoint own/k own/z.rec"
    no_clash "a report to /dev/null" "$used --report /dev/null own/z.rec"
    no_clash "a recording and a report that are one device" "$used --report /dev/../dev/null /dev/null"
    no_clash "a report to /dev/stdout, which is a pipe" "$used --report /dev/stdout own/z.rec | cat"
    no_clash "a report and packets in one pipe" "$used own/z.rec 2>&1 | cat"
    no_clash "a report and packets in one file" "$used own/z.rec >own/both 2>&1"
    no_clash "a report by a link to a file that is not there" "$used --report own/later own/z.rec"
    tell "a report by a link to a file that is not there: it is there" "$(cmp expected/report own/unmade 2>&1)"
    no_clash "split with standard output closed" "$tmx split --settings own/s.toml --dir own/d --report own/r own/z.rec >&-"
    tell "split with standard output closed: all of it" "$(diff -r expected/split own/d 2>&1)"
    no_clash "split with the recording in its folder" "cp own/z.rec own/d/apid-0099.pkt; $tmx split --settings own/s.toml --dir own/d --report own/r own/d/apid-0099.pkt"
    tell "split with the recording in its folder: it is as it was" "$(cmp "$rec" own/d/apid-0099.pkt)"
}

# Two files that have one number, each on a device of its own, are two.
one_number() {
    local said
    said=$(python3 "$here/one_number.py" "$tmx" "$s" "$rec" expected 2>&1)
    case $? in
    0) ok "a recording and a report that have one number on two devices" ;;
    3) skip 1 "a recording and a report that have one number on two devices" "$said" ;;
    *) no "a recording and a report that have one number on two devices: $said" ;;
    esac
}
