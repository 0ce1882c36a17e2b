# shellcheck shell=bash disable=SC2154
# Group `devices`: what is written to can't be written, and what is read can't be read.

# Whether a file is a proper front of another.
is_front() {
    [ "$(stat -c %s "$1")" -lt "$(stat -c %s "$2")" ] && cmp -s -n "$(stat -c %s "$1")" "$1" "$2"
}

# Further words that send the report to a file.
plain_words() {
    case $1 in
    fields) echo "--report r --definition $here/fields.csv --apid $(cat expected/apid)" ;;
    packets | extract) echo "--report r" ;;
    esac
}

# What is wrong with what a command gave of the example, where that has to be whole.
whole() {
    case $1 in
    split) diff -r expected/split split 2>&1 ;;
    *) cmp out "expected/$1" 2>&1 ;;
    esac
}

# The name of a trial, the status, the line, and a command that doesn't come to write its checkpoint, or not all of it: the one before stays.
checkpoint_stays() {
    echo before >c
    gives "$1" "$2" "$3" "$4"
    tell "$1: the checkpoint before is as it was, and nothing is left beside it" "$(echo before | cmp - c 2>&1; ls c.new 2>/dev/null)"
}

# The name of a trial, a checkpoint whose file can't be made ready, a command, and what it is run by: it ends before it reads or gives anything.
unready() {
    rm -f split/*
    echo before >r
    gives "$1" 1 "tmx: $2: failed" "exec 4<$rec; $4 $3 --report r --checkpoint '$2' <&4; found=\$?; cat <&4 >unread; exit \$found"
    tell "$1: nothing is read, and no octet is given" "$(cmp unread "$rec" 2>&1; cat out r | wc -c | grep -vx 0; ls split)"
}

# Likewise in a folder that the modes of files close, also to root, which runs without its right to pass over modes.
closed_folder() {
    local by=""
    [ "$(id -u)" != 0 ] || by="setpriv --bounding-set=-dac_override"
    mkdir closed
    echo before >closed/c
    chmod 555 closed
    if ! $by true 2>/dev/null || $by touch closed/new 2>/dev/null; then
        skip 3 "checkpoint in a folder that is closed" "nobody is kept out of a folder here, and there is no setpriv for it"
    else
        unready "checkpoint in a folder that is closed" closed/c "$packets" "$by"
        tell "checkpoint in a folder that is closed: the one before is as it was" "$(echo before | cmp - closed/c 2>&1)"
    fi
    chmod 755 closed
    rm -r closed
}

# Checkpoints that can't be made ready, beside those of each command.
unready_checkpoints() {
    mkdir c.new
    unready "checkpoint beside which a folder has the name of its new file" c "$packets" ""
    rmdir c.new
    closed_folder
    python3 "$here/reference.py" keep "$s" "$rec" 20 3 >after20 || no "after20 isn't made"
    echo before >r
    gives "checkpoint in a folder that is missing, from another one on" 1 "tmx: missing/c: failed" \
        "$packets --resume after20 --report r --checkpoint missing/c $rec"
    tell "checkpoint in a folder that is missing, from another one on: the report is as it was" "$(echo before | cmp - r 2>&1)"
}

# Runs that keep a checkpoint, and end with a fault.
faults_of_keepers() {
    checkpoint_stays "a checkpoint, standard output on a full device" 1 "tmx: write failed" "$packets --report r --checkpoint c $rec >/dev/full"
    checkpoint_stays "a checkpoint, the report on a full device" 1 "tmx: report failed" "$extract --report /dev/full --checkpoint c $rec"
    checkpoint_stays "a checkpoint, the recording a folder" 1 "tmx: read failed" "$fields --report r --checkpoint c ."
    checkpoint_stays "a checkpoint, the files of split in a folder that can't be written" 1 "tmx: write failed" \
        "$tmx split --settings $s --dir /proc --report r --checkpoint c $rec"
    checkpoint_stays "a checkpoint, the recording shorter than the one to go on from" 2 "tmx: recording is shorter than the checkpoint" \
        "$packets --resume after20 --report r --checkpoint c /dev/null"
}

# A recording that can't be read on: the call for it is one of a library of the trial's own, which gives 4096 octets at the most, and fails
# behind 40,000 of them.
reading_fails() {
    local command
    if ! command -v cc >/dev/null; then
        skip 10 "a recording that can't be read on" "no C compiler"
        return
    fi
    cat >read.c <<'END'
#define _GNU_SOURCE
#include <dlfcn.h>
#include <errno.h>
#include <unistd.h>
ssize_t read(int file, void *octets, size_t most) {
    static size_t given;
    ssize_t (*call)(int, void *, size_t) = (ssize_t (*)(int, void *, size_t))dlsym(RTLD_NEXT, "read");
    if (given > 40000) { errno = EIO; return -1; }
    ssize_t found = call(file, octets, most < 4096 ? most : 4096);
    if (found > 0) given += found;
    return found;
}
END
    cc -shared -fPIC -o read.so read.c -ldl
    for command in frames packets extract summary; do
        gives "$command of a recording that can't be read on" 1 "tmx: read failed" \
            "LD_PRELOAD=$PWD/read.so $tmx $command --settings $s $(plain_words $command) $rec"
        if [ $command = summary ]; then
            tell "$command of a recording that can't be read on: nothing is written" "$(cat out)"
        else
            tell "$command of a recording that can't be read on: a front is written" "$([ -s out ] && is_front out expected/$command || echo no)"
        fi
    done
    checkpoint_stays "a checkpoint of a recording that can't be read on" 1 "tmx: read failed" \
        "LD_PRELOAD=$PWD/read.so $packets --report r --checkpoint c $rec"
}

# A disk that doesn't take a checkpoint: the call for it is one of a library of the trial's own, and fails.
disk_fails() {
    if ! command -v cc >/dev/null; then
        skip 2 "a checkpoint that the disk doesn't take" "no C compiler"
        return
    fi
    printf '%s\n' '#include <errno.h>' 'int fsync(int file) { (void)file; errno = EIO; return -1; }' >sync.c
    cc -shared -fPIC -o sync.so sync.c
    checkpoint_stays "a checkpoint that the disk doesn't take" 1 "tmx: c: failed" "LD_PRELOAD=$PWD/sync.so $packets --report r --checkpoint c $rec"
}

# Where no packet comes, a folder that isn't there is found before the run: no report is begun, and no checkpoint written.
no_folder() {
    local name
    echo before >r
    echo before >file
    for name in missing file; do
        gives "split of no packets to a folder that is $name" 1 "tmx: write failed" \
            "$tmx split --settings $s --dir $name --report r --checkpoint no_folder.c /dev/null"
        tell "split of no packets to a folder that is $name: nothing is begun" "$(echo before | cmp - r 2>&1; ls no_folder.c 2>/dev/null)"
    done
}

devices() {
    # guards: devices-over-stds-readers-and-writers
    # guards: the-contracts-that-devices-keep
    # guards: output-writes-the-piece-of-each-item-it-takes
    # guards: write_summary-writes-the-lines-of-the-numbers
    # guards: summarize-writes-the-recordings-summary
    # guards: faults-name-the-file-as-it-was-given
    # guards: what-a-plan-decides-before-any-file-is-opened
    # guards: what-is-checked-and-opened-before-a-run
    # guards: each-step-has-only-its-own-faults
    # Opens a pipe that nobody reads as 4: 3 reads it only until 4 is open.
    local command room unheard="mkfifo pipe; exec 3<>pipe 4>pipe 3<&-; rm pipe"
    names
    for command in "$packets --report r" "$extract --report r" "$fields --report r" "$tmx frames --settings $s" "$tmx summary --settings $s"; do
        set -- $command
        room=8
        [ "$2" != summary ] || room=1
        gives "$2 to a full device" 1 "tmx: write failed" "$command $rec >/dev/full"
        gives "$2 to a closed standard output" 1 "tmx: write failed" "$command $rec >&-"
        gives "$2 to a closed standard output, the recording in a pipe" 1 "tmx: write failed" "cat $rec | $command >&-"
        gives "$2 to a pipe that nobody reads" 1 "tmx: write failed" "$unheard; $command $rec >&4"
        gives "$2 to a pipe that nobody reads, its signal ignored" 1 "tmx: write failed" \
            "trap '' PIPE; $unheard; $command $rec >&4"
        gives "$2 to a file with room for $room KiB" 1 "tmx: write failed" "trap '' XFSZ; ulimit -f $room; $command $rec"
        tell "$2 to a file with room for $room KiB: it has a front of the output" \
            "$(is_front out "expected/$2" || echo no)"
    done
    for command in frames summary; do
        gives "$command with closed standard input" 1 "tmx: read failed" "$tmx $command --settings $s <&-"
        gives "$command with a closed standard error" 0 "" "$tmx $command --settings $s $rec 2>&-"
        tell "$command with a closed standard error: all of it" "$(cmp out expected/$command 2>&1)"
    done
    for command in packets extract fields frames summary; do
        gives "$command with the recording in pieces of an octet" 0 "" \
            "dd if=$rec bs=1 status=none | $tmx $command --settings $s $(plain_words $command)"
        tell "$command with the recording in pieces of an octet: all of it" "$(cmp out expected/$command 2>&1)"
    done
    gives "packets with all standard streams closed" 1 "" "$packets --report r $rec <&- >&- 2>&-"
    gives "help to a full device" 1 "tmx: write failed" "$tmx --help >/dev/full"
    for command in "$packets" "$extract" "$fields" "$split"; do
        set -- $command
        gives "report of $2 to a full device" 1 "tmx: report failed" "$command --report /dev/full $rec"
        # The report fits its buffer, so it fails when all packets are given.
        tell "report of $2 to a full device: all else is whole" "$(whole "$2")"
        gives "report of $2 to a full standard error" 1 "" "$command $rec 2>/dev/full"
        rm -f split/*
        gives "report of $2 to a closed standard error" 1 "" "$command $rec 2>&-"
        tell "report of $2 to a closed standard error: nothing is begun" "$(ls split; ! [ -s out ] || wc -c out)"
        unready "checkpoint of $2 in a folder that is missing" missing/c "$command" ""
        unready "checkpoint of $2 in a folder that can't be written" /proc/c "$command" ""
        unready "checkpoint of $2 with an empty name" "" "$command" ""
        gives "checkpoint of $2 that is a folder" 1 "tmx: split: failed" "$command --report r --checkpoint split $rec"
        gives "report of $2 in a folder that is missing" 1 "tmx: missing/r: failed" "$command --report missing/r $rec"
        tell "nothing is left of a checkpoint of $2" "$(ls -d split.new .new 2>/dev/null)"
        gives "$2 with closed standard input" 1 "tmx: read failed" "$command --report r <&-"
    done
    unready_checkpoints
    mkfifo pipe
    gives "a checkpoint that is a pipe" 1 "tmx: pipe: failed" "$packets --report r --checkpoint pipe $rec"
    tell "a checkpoint that is a pipe: it is still one, with nothing beside it" "$([ -p pipe ] || ls -l pipe; ls pipe.new 2>/dev/null)"
    rm pipe
    faults_of_keepers
    rm -rf split
    gives "split to a folder that is missing" 1 "tmx: write failed" "$split --report r $rec"
    no_folder
    gives "split to a folder that can't be written" 1 "tmx: write failed" "$tmx split --settings $s --dir /proc --report r $rec"
    mkdir split
    gives "split to files with room for 4 KiB" 1 "tmx: write failed" "trap '' XFSZ; ulimit -f 4; $split --report r $rec"
    tell "split to files with room for 4 KiB: each has a front of its packets" \
        "$(cd split && for f in *; do cmp -s -n "$(stat -c %s "$f")" "$f" "../expected/split/$f" || echo "$f"; done)"
    rm -f split/*
    ln -s /dev/full split/apid-0100.pkt
    gives "split with its first file on a full device" 1 "tmx: write failed" "$split --report r $rec"
    tell "split with its first file on a full device: the others are whole" "$(diff -r -x apid-0100.pkt expected/split split 2>&1)"
    ln -s /dev/full c.new
    checkpoint_stays "a checkpoint on a full device" 1 "tmx: c: failed" "$extract --report r --checkpoint c --stop-after 20 $rec"
    disk_fails
    reading_fails
    wide_recording
    checkpoint_stays "a checkpoint of 40 KB with room for 8 KiB" 1 "tmx: c: failed" \
        "trap '' XFSZ; ulimit -f 8; $tmx extract --settings wide.toml --report r --checkpoint c --stop-after 20 wide.rec"
    plan 158
}
