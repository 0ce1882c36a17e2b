# shellcheck shell=bash disable=SC2154
# Group `faults`: each line and status of the fault table, and runs without memory.

# A checkpoint of these octets, in hexadecimal, with its error control.
forged() {
    python3 - "$1" "$2" <<'END' || no "the checkpoint $1 isn't made"
import sys
from binascii import crc_hqx
octets = bytes.fromhex(sys.argv[2])
open(sys.argv[1], "wb").write(octets + crc_hqx(octets, 0xFFFF).to_bytes(2, "big"))
END
}

# Wrong words: status 2, nothing on standard output, and a text on standard error.
usage() {
    local found
    bash -c "$2" >out 2>err </dev/null
    found=$?
    if [ $found = 2 ] && [ -s err ] && ! grep -q '^tmx:' err && ! [ -s out ]; then ok "words: $1"; else no "words: $1: status $found: $(head -c 300 err)"; fi
}

# The commands and options of the help that the manual page lacks.
manual_lacks() {
    local command option commands
    commands=$("$tmx" --help | sed -n '/^Commands:/,/^$/s/^  \([a-z]*\) .*/\1/p')
    [ -n "$commands" ] || echo "help names no command"
    for command in $commands; do
        grep -qx "\.It Cm $command" "$here/../docs/tmx.1" || echo "$command"
        for option in $("$tmx" "$command" --help | grep -oE '^ .*--[a-z-]+' | grep -oE '\-\-[a-z-]+'); do
            grep -qE "^\.It .*Fl ${option#-}( |\$)" "$here/../docs/tmx.1" || echo "$command $option"
        done
    done
}

faults() {
    # guards: fault-lines-and-exit-statuses
    # guards: definitionread-gives-the-fields-or-the-refusal
    # guards: settingsread-gives-the-settings-or-the-refusal
    # guards: summarize-writes-the-recordings-summary
    # guards: a-jobs-checkpoint-is-written-and-read
    # guards: plan-gives-the-plan-that-the-words-ask-for
    # guards: put-holds-the-octets-or-writes-them
    # guards: check_names-and-check_errors-find-the-first-clash
    # guards: faults-name-the-file-as-it-was-given
    # guards: what-a-plan-decides-before-any-file-is-opened
    # guards: what-is-checked-and-opened-before-a-run
    # guards: a-run-with-ok-had-names-that-dont-clash
    # guards: each-fault-traces-to-a-word-or-a-file
    # guards: each-step-has-only-its-own-faults
    names
    usage_faults
    settings_faults
    definition_faults
    checkpoint_faults
    own_files
    order_of_faults
    run_faults
    report_unbegun
    begun_empty
    empty_recording
    memory_faults
    long_words
    split_cuts
    repeated
    many_applications
    few_open_files
    wide_recording
    wide_row
    wide_packet
    plan 199
}

# Copies of the files that are read, for trials in which they are named as files to write.
own_files() {
    cp "$rec" own.rec
    cp "$s" own.toml
    cp "$example/attitude.csv" own.csv
}

usage_faults() {
    local words
    gives "help" 0 "" "$tmx --help"
    gives "help of split" 0 "" "$tmx split --help"
    gives "version" 0 "" "$tmx --version"
    tell "version: its line" "$(grep -qxE 'tmx [0-9]+\.[0-9]+\.[0-9]+' out || cat out)"
    tell "the manual page has each command and option" "$(manual_lacks)"
    if command -v mandoc >/dev/null; then
        tell "the manual page is well formed" "$(mandoc -T lint -W warning "$here/../docs/tmx.1" 2>&1)"
    else
        skip 1 "the manual page is well formed" "no mandoc"
    fi
    usage "none" "$tmx"
    usage "an unknown command" "$tmx unpack"
    usage "no settings" "$tmx packets $rec"
    usage "settings twice" "$packets --settings $s $rec"
    usage "an unknown word" "$packets --report r --verbose $rec"
    usage "two recordings" "$packets $rec $rec"
    usage "no application" "$tmx fields --settings $s --definition $example/attitude.csv $rec"
    usage "application 2048" "$tmx fields --settings $s --definition $example/attitude.csv --apid 2048 $rec"
    usage "application -1" "$tmx fields --settings $s --definition $example/attitude.csv --apid -1 $rec"
    usage "application 10^30" "$tmx fields --settings $s --definition $example/attitude.csv --apid 1000000000000000000000000000000 $rec"
    usage "no folder for split" "$tmx split --settings $s $rec"
    usage "stop after 0" "$packets --checkpoint c --stop-after 0 $rec"
    usage "stop after 2^32" "$packets --checkpoint c --stop-after 4294967296 $rec"
    usage "words that are not UTF-8" "$packets \$'\\xff'"
    for words in "frames --report r" "summary --report r" "summary --checkpoint c" "summary --resume c" "summary --stop-after 5"; do
        usage "a word that the command doesn't take: $words" "$tmx $words --settings $s $rec"
    done
    usage "a summary without settings" "$tmx summary $rec"
    usage "a summary of two recordings" "$tmx summary --settings $s $rec $rec"
    gives "stop after without a checkpoint" 2 "tmx: --stop-after needs --checkpoint" "$packets --stop-after 5 $rec"
}

# The refusal that is wanted, and the settings.
settings_fault() {
    printf '%b' "$2" >bad
    gives "settings: $1" 2 "tmx: settings: $1" "$tmx frames --settings bad $rec"
}

settings_faults() {
    local good='spacecraft = 42\nframe_length = 256\nerror_control = true\n'
    settings_fault toml 'spacecraft = \n'
    settings_fault toml '\xff'
    settings_fault 'unknown colour' "${good}colour = 1\nshape = 2\n"
    settings_fault 'unknown ' "${good}\"\" = 1\n"
    settings_fault 'unknown a\x5cb\x0a\xc3\xa9' "${good}\"a\\\\\\\\b\\\\n\\\\u00e9\" = 1\n"
    settings_fault 'missing spacecraft' 'frame_length = 256\n'
    settings_fault 'missing frame_length' 'spacecraft = 42\n'
    settings_fault 'missing error_control' 'spacecraft = 42\nframe_length = 256\n'
    settings_fault 'kind spacecraft' 'spacecraft = "42"\n'
    settings_fault 'range spacecraft' 'spacecraft = 1024\n'
    settings_fault 'range spacecraft' 'spacecraft = -1\n'
    settings_fault 'range frame_length' 'spacecraft = 42\nframe_length = 8\n'
    settings_fault 'range frame_length' 'spacecraft = 42\nframe_length = 2049\n'
    settings_fault 'range skip_before' "${good}skip_before = 1025\n"
    settings_fault 'kind skip_after' "${good}skip_after = 1.0\n"
    settings_fault 'range secondary' "${good}secondary = \"Flag\"\n"
    settings_fault 'kind ocf' "${good}ocf = true\n"
    settings_fault 'kind error_control' 'spacecraft = 42\nframe_length = 256\nerror_control = 1\n'
    settings_fault 'kind channels' "${good}channels = 3\n"
    settings_fault 'kind channels' "${good}channels = [1, \"2\"]\n"
    settings_fault 'range channels' "${good}channels = []\n"
    settings_fault 'range channels' "${good}channels = [1, 1]\n"
    settings_fault 'range channels' "${good}channels = [8]\n"
    settings_fault 'kind max_packet' "${good}max_packet = \"1100\"\n"
    settings_fault 'range max_packet' "${good}max_packet = 6\n"
    settings_fault 'range max_packet' "${good}max_packet = 65543\n"
    settings_fault 'range channels' "${good}max_packet = 6\nchannels = []\n"
}

definition_fault() {
    printf '%b' "$2" >bad
    gives "definition: $1" 2 "tmx: definition: $1" "$tmx fields --settings $s --definition bad --apid 1 $rec"
}

definition_faults() {
    local head='name,data_type,bit_length,bit_offset\n'
    definition_fault csv "${head}A,uint,8\n"
    definition_fault 'column name' 'data_type,bit_length\n'
    definition_fault 'column data_type' 'name,data_type,bit_length,data_type\n'
    definition_fault 'column bit_length' 'name,data_type\n'
    definition_fault 'column bit_offset' 'name,data_type,bit_length,bit_offset,bit_offset\n'
    definition_fault 'array row 1' "${head}A,uint(3),8,\n"
    definition_fault 'kind row 2' "${head}A,uint,8,\nB,word,8,\n"
    definition_fault 'bits row 1' "${head}A,uint,65,\n"
    definition_fault 'bits row 1' "${head}A,float,8,\n"
    definition_fault 'bits row 1' "${head}A,str,12,\n"
    definition_fault 'bits row 1' "${head}A,uint,0000000008,\n"
    definition_fault 'offset row 1' "${head}A,uint,8,x\n"
    definition_fault 'offset row 1' "${head}A,uint,8,524329\n"
    definition_fault 'offset row 2' "${head}A,fill,524288,\nB,uint,1,\n"
    definition_fault 'name row 2' "${head}A,uint,8,\nA,uint,8,\n"
    definition_fault 'name row 1' "${head},uint,8,\n"
    definition_fault 'too many' "$head$(for n in $(seq 1001); do printf 'N%s,uint,1,\\n' "$n"; done)"
}

# The refusal that is wanted, the checkpoint, and perhaps other settings than the example's.
checkpoint_fault() {
    forged bad "$2"
    gives "checkpoint: $1" 2 "tmx: checkpoint: $1" "$tmx packets --settings ${3:-$s} --resume bad --report r $rec"
}

# A checkpoint before any record: a name, the octets, and perhaps other settings than the example's.
checkpoint_good() {
    forged good "$2"
    rm -f r
    gives "a forged checkpoint $1" 0 "" "$tmx packets --settings ${3:-$s} --resume good --report r $rec"
    tell "a forged checkpoint $1 gives all" "$(cmp out expected/packets 2>&1; cmp r expected/report 2>&1)"
}

checkpoint_faults() {
    local magic=544d5843 mine="002a 0100 0000 0000 02 00 01" limit=000370 none=0000000000000000 seven=00000000000000 head
    grep -v '^max_packet' "$s" >plain.toml
    head="$magic 03 $mine 0b $limit"
    checkpoint_good "before any record" "$head 00000000 00 $none 0000"
    checkpoint_good "of version 2" "$magic 02 $mine 0b $limit 00000000 $none 0000"
    checkpoint_good "of version 1" "$magic 01 $mine 0b 00000000 $none 0000" plain.toml
    checkpoint_fault version "$magic 00 $mine 0b $limit 00000000 00 $none 0000"
    checkpoint_fault version "$magic 04 $mine 0b $limit 00000000 00 $none 0000"
    checkpoint_fault short "$head 00000000 00 $none"
    checkpoint_fault short "$magic 02 $mine 0b $limit 00000000 $none"
    checkpoint_fault short "$magic 01 $mine 0b 00000000 $none" plain.toml
    checkpoint_fault settings "$magic 03 $mine 0f $limit 00000000 00 $none 0000"
    checkpoint_fault settings "$magic 03 002b 0100 0000 0000 02 00 01 0b $limit 00000000 00 $none 0000"
    checkpoint_fault settings "$magic 03 $mine 0b 000371 00000000 00 $none 0000"
    checkpoint_fault settings "$magic 02 $mine 0b 010006 00000000 $none 0000"
    checkpoint_fault settings "$magic 01 $mine 0b 00000000 $none 0000"
    checkpoint_fault settings "$head 00000000 00 $none 0000" plain.toml
    checkpoint_fault state "$head 00000001 02 $none 0000"
    checkpoint_fault state "$head 00000001 00 0000010000000000 00 0000"
    checkpoint_fault state "$head 00000001 00 0300000000000000 0000"
    checkpoint_fault state "$head 00000001 00 0201 00000001 0000 00000001 00 $seven 0000"
    checkpoint_fault state "$head 00000001 00 0201 00000000 0000 00000370 $(printf '00%.0s' $(seq 880)) $seven 0000"
    checkpoint_fault state "$head 00000001 00 0201 00000000 0000 00000006 0064c000036a $seven 0000"
    checkpoint_fault state "$head 00000001 00 $none 0001 0000 4000 ffff"
    checkpoint_fault state "$head 00000001 00 $none 0001 07ff 0000 ffff"
    checkpoint_fault state "$head 00000001 00 $none ffff"
    checkpoint_fault state "$head 00000001 0105 $seven 0000"
    checkpoint_fault trailing "$head 00000000 00 $none 000000"
    checkpoint_fault trailing "$magic 02 $mine 0b $limit 00000000 00 $none 0000"
    forged longest "$head 00000001 00 0201 00000000 0000 00000006 0064c0000369 $seven 0000"
    gives "a checkpoint with a part of the longest packet" 0 "" "$packets --resume longest --report r $rec"
    forged later "$head 0000012d 00 $none 0000"
    gives "a recording that is shorter than the checkpoint" 2 "tmx: recording is shorter than the checkpoint" "$packets --resume later --report r $rec"
    gives "an empty recording behind a checkpoint" 2 "tmx: recording is shorter than the checkpoint" "$packets --resume later --report r /dev/null"
    forged last "$head ffffffff 00 $none 0000"
    gives "a checkpoint after 2^32 - 1 records" 2 "tmx: recording is shorter than the checkpoint" "$packets --resume last --report r $rec"
}

# Where more than one step would be refused, the first of them is.
order_of_faults() {
    local ends="--report missing/r missing.rec" later own="$tmx packets --settings own.toml --checkpoint own.rec"
    later="--definition missing.csv --apid 1 --resume missing.chk $ends"
    gives "the words before the standard streams" 2 "tmx: --stop-after needs --checkpoint" "$packets --stop-after 5 $rec >&-"
    gives "the standard streams before the settings" 1 "tmx: write failed" "$tmx packets --settings missing.toml $ends >&-"
    gives "the words before the settings" 2 "tmx: --stop-after needs --checkpoint" "$tmx packets --settings missing.toml --stop-after 5 $ends"
    gives "the settings before the definition" 1 "tmx: missing.toml: failed" "$tmx fields --settings missing.toml $later"
    gives "the definition before the checkpoint" 1 "tmx: missing.csv: failed" "$tmx fields --settings $s $later"
    gives "the checkpoint before the recording" 1 "tmx: missing.chk: failed" "$packets --resume missing.chk $ends"
    gives "the recording before the report" 1 "tmx: missing.rec: failed" "$packets $ends"
    gives "the recording before the names" 1 "tmx: missing.rec: failed" "$packets --report c --checkpoint c missing.rec"
    gives "the name of the checkpoint before that of the report" 1 "tmx: own.rec: failed" "$own --report own.toml own.rec"
    gives "the names before the folder" 1 "tmx: own.rec: failed" "$tmx split --settings $s --dir missing --report own.rec own.rec"
    gives "the folder before the report" 1 "tmx: write failed" "$tmx split --settings $s --dir missing --report missing/r $rec"
    gives "the names before the report" 1 "tmx: own.rec: failed" "$own --report missing/r own.rec"
    gives "the report before the run" 1 "tmx: missing/r: failed" "$packets --report missing/r split"
    gives "the report before the file beside the checkpoint" 1 "tmx: missing/r: failed" "$packets --report missing/r --checkpoint missing/c split"
    gives "the file beside the checkpoint before the run" 1 "tmx: missing/c: failed" "$packets --report r --checkpoint missing/c split"
    gives "a folder as the checkpoint before the run" 1 "tmx: expected: failed" "$packets --report r --checkpoint expected split"
    gives "the run before its checkpoint" 1 "tmx: read failed" "$packets --report r --checkpoint c split"
    tell "the run before its checkpoint: no file is left beside it" "$(ls -d expected.new c.new 2>/dev/null)"
}

run_faults() {
    local used command
    gives "a folder as the recording" 1 "tmx: read failed" "$packets --report r split"
    gives "a folder as standard input" 1 "tmx: read failed" "$packets --report r <split"
    gives "a recording that is missing" 1 "tmx: missing.rec: failed" "$packets missing.rec"
    gives "an empty name of a recording" 1 "tmx: : failed" "$packets ''"
    gives "a recording with a long name" 1 "tmx: $(printf 'a%.0s' $(seq 5000)): failed" "$packets $(printf 'a%.0s' $(seq 5000))"
    cp "$rec" ./-
    for command in frames summary; do
        gives "$command of a folder" 1 "tmx: read failed" "$tmx $command --settings $s split"
        tell "$command of a folder: nothing is written" "$(cat out)"
        gives "$command of a recording that is missing" 1 "tmx: missing.rec: failed" "$tmx $command --settings $s missing.rec"
        gives "$command by settings that are missing" 1 "tmx: missing.toml: failed" "$tmx $command --settings missing.toml missing.rec"
    done
    gives "summary of an empty recording" 0 "" "$tmx summary --settings $s"
    printf '%s\n' "recording records=0 good=0 bad=0 rest=0" "master gaps=0 missing=0" >wanted
    tell "summary of an empty recording: two lines" "$(cmp out wanted 2>&1)"
    gives "a recording named -" 0 "" "$packets --report r -"
    tell "a recording named -: all of it" "$(cmp out expected/packets 2>&1)"
    cp "$rec" $' n\xc3\xa9\n'
    gives "a recording with a space and a line end in its name" 0 "" "$packets --report r \$' n\xc3\xa9\n'"
    tell "a recording with a space and a line end in its name: all of it" "$(cmp out expected/packets 2>&1)"
    used="$tmx fields --settings own.toml --definition own.csv --apid 101"
    gives "the report over the recording" 1 "tmx: own.rec: failed" "$used --report own.rec own.rec"
    gives "the report over the settings" 1 "tmx: own.toml: failed" "$used --report own.toml own.rec"
    gives "the report over the definition" 1 "tmx: own.csv: failed" "$used --report own.csv own.rec"
    gives "the report over the checkpoint" 1 "tmx: c: failed" "$used --report c --checkpoint c own.rec"
    echo before >r
    gives "the checkpoint over the recording" 1 "tmx: own.rec: failed" "$used --report r --checkpoint own.rec own.rec"
    gives "the checkpoint over the settings" 1 "tmx: own.toml: failed" "$used --report r --checkpoint own.toml own.rec"
    cp "$rec" own.new
    gives "the checkpoint by way of the recording" 1 "tmx: own: failed" "$used --report r --checkpoint own own.new"
    tell "the recording is as it was" "$(cmp "$rec" own.new)"
    tell "the report is as it was where the checkpoint is refused its name" "$(echo before | cmp - r 2>&1)"
    gives "the checkpoint by way of the report" 1 "tmx: own: failed" "$used --report own.new --checkpoint own own.rec"
    gives "split to an empty name of a folder" 1 "tmx: : failed" "$tmx split --settings own.toml --dir '' --report r own.rec"
    tell "the files that are read are as they were" "$(cmp "$rec" own.rec; cmp "$s" own.toml; cmp "$example/attitude.csv" own.csv)"
}

# A report is not begun where a file that is read is refused.
report_unbegun() {
    local used="--definition missing --apid 101"
    echo before >r
    gives "a report beside settings that are missing" 1 "tmx: missing: failed" "$tmx packets --settings missing --report r $rec"
    gives "a report beside a definition that is missing" 1 "tmx: missing: failed" "$tmx fields --settings $s $used --report r $rec"
    gives "a report beside a recording that is missing" 1 "tmx: missing: failed" "$packets --report r missing"
    gives "a report beside a checkpoint that is missing" 1 "tmx: missing: failed" "$packets --resume missing --report begun $rec"
    tell "the report is as it was where a file is refused" "$(echo before | cmp - r 2>&1; ls begun 2>/dev/null)"
}

# The report and the files of `split` have nothing of longer files that stood there.
begun_empty() {
    local file
    rm -rf split
    cp -r expected/split split
    for file in r split/*; do cat "$rec" >>"$file"; done
    gives "split over longer files" 0 "" "$split --report r $rec"
    tell "split over longer files: nothing is left of them" "$(cmp r expected/report 2>&1; diff -r expected/split split 2>&1)"
}

# A job of no record: its checkpoint is written, and the job goes on from it when the recording has grown.
empty_recording() {
    local command used
    forged wanted.c "544d5843 03 002a 0100 0000 0000 02 00 01 0b 000370 00000000 00 0000000000000000 0000"
    for command in packets extract split; do
        rm -rf c r split
        mkdir split
        used="$tmx $command --settings $s --report r"
        [ $command != split ] || used+=" --dir split"
        gives "$command of an empty recording, with a checkpoint" 0 "" "$used --checkpoint c /dev/null"
        tell "$command of an empty recording, with a checkpoint: it is there, and nothing else" \
            "$(cmp c wanted.c 2>&1; cat out r; ls split)"
        gives "$command goes on from the checkpoint of an empty recording" 0 "" "$used --resume c $rec"
        tell "$command goes on from the checkpoint of an empty recording: all of it" "$(cmp r expected/report 2>&1; whole $command)"
    done
}

memory_faults() {
    filled settings.full "$s" 1048576
    little_memory frames "frames --settings $s" expected/frames
    little_memory "frames by settings of 1 MiB" "frames --settings settings.full" expected/frames
    little_memory summary "summary --settings $s" expected/summary
    little_memory packets "packets --settings $s --report r" expected/packets
    little_memory extract "extract --settings $s --report r" expected/extract
    little_memory fields "fields --settings $s --definition $example/attitude.csv --apid 101 --report r" ""
    little_memory split "split --settings $s --dir split --report r" ""
}

# The program is one that rt has built. One that was compiled without the proof needs more of the stack, which can't grow in little memory.
built_by_rt() {
    grep -qa 'rattle logic=' "$tmx"
}

# From no memory up to enough: what a command gives must be the loader's refusal, `out of memory`, or all. The name of the
# trial, the command, and the file that has all, if there is one.
little_memory() {
    local limit found least=0 most=0 wrong=""
    for limit in $(seq 1024 64 8192); do
        : >r
        { bash -c "ulimit -v $limit; exec $tmx $2 $rec" >out 2>err </dev/null; } 2>/dev/null
        found=$?
        case $found in
        0) [ -z "$3" ] || cmp -s out "$3" || wrong+="$limit KiB: not all; " ;;
        3)
            [ "$(cat err)" = "tmx: out of memory" ] || wrong+="$limit KiB: $(head -c 100 err); "
            [ "$least" != 0 ] || least=$limit
            most=$limit
            ;;
        139)
            if [ "$least" != 0 ] && built_by_rt; then
                wrong+="$limit KiB: status $found; "
            elif [ "$least" != 0 ]; then
                echo "note $1: status $found by $limit KiB, of a program that rt hasn't built"
            fi
            ;;
        126 | 127 | 137) [ "$least" = 0 ] || wrong+="$limit KiB: status $found; " ;;
        *) wrong+="$limit KiB: status $found, $(head -c 100 err); " ;;
        esac
    done
    [ "$least" != 0 ] || wrong+="no limit gave out of memory; "
    tell "$1 with little memory" "$wrong"
    echo "note $1: out of memory from $least to $most KiB of address space"
}

# The same for names of 100,000 octets. With enough memory the first is refused. Under a limit bash itself could
# not hold them.
long_words() {
    says "long words with little memory" python3 - "$tmx" <<'END'
import resource, subprocess, sys
names = [letter * 100000 for letter in "abcdef"]
words = "--settings {} --dir {} --report {} --checkpoint {} --resume {} {}".format(*names).split()
last, out_of_memory = "", []
for limit in range(1024, 8193, 64):
    run = subprocess.run([sys.argv[1], "split", *words], stdin=subprocess.DEVNULL, capture_output=True,
                         preexec_fn=lambda: resource.setrlimit(resource.RLIMIT_AS, (limit * 1024, limit * 1024)))
    last = run.returncode, run.stderr.decode()
    if last == (3, "tmx: out of memory\n"):
        out_of_memory.append(limit)
    elif last != (1, f"tmx: {names[0]}: failed\n") and (out_of_memory or run.returncode not in (126, 127, -9, -11)):
        sys.exit(f"{limit} KiB: status {run.returncode}, {run.stderr[:100]}")
if not out_of_memory or last[0] != 1:
    sys.exit(f"out of memory at {out_of_memory}, status {last[0]} at the end")
print(f"out of memory from {out_of_memory[0]} to {out_of_memory[-1]} KiB of address space")
END
}

# `split` with hundreds of limits: what is held is written where memory runs out.
split_cuts() {
    says "split with little memory ends at one place" python3 "$here/cuts.py" "$tmx" "$s" "$rec"
}

# A recording 200 times over: files that are written when they have much, so that little is held, and rows that aren't held.
repeated() {
    local file
    for _ in $(seq 200); do cat "$rec"; done >many.rec
    rm -rf split
    mkdir split
    gives "split of 14 MB with 8 MiB" 0 "" "ulimit -v 8192; $split --report r many.rec"
    tell "split of 14 MB with 8 MiB: each file 200 times over" "$(
        for file in expected/split/*; do
            for _ in $(seq 200); do cat "$file"; done | cmp - "split/${file##*/}" 2>&1
        done
    )"
    gives "50,200 rows with 6 MiB" 0 "" \
        "ulimit -v 6144; $tmx fields --settings $s --definition $example/attitude.csv --apid 100 --report r many.rec"
    tell "50,200 rows with 6 MiB: all of them, behind the head" "$([ "$(wc -l <out)" = 50201 ] || wc out)"
    rm many.rec
}

# Two packets of 2,042 octets for each of 2,047 applications: each file has little, and all together is much to hold.
many_applications() {
    local split="$tmx split --settings many.toml --dir split --report r many.rec"
    settings many.toml 5 2048 false 'secondary = "never"' 'ocf = "never"'
    python3 - <<'END' || no "many.rec isn't made"
with open("many.rec", "wb") as file:
    for seen in range(4094):
        head = 5 << 36 | seen % 256 << 24 | seen % 256 << 16
        file.write(head.to_bytes(6, "big") + bytes([seen % 2047 >> 8, seen % 2047 % 256, 0xC0 | seen // 2047 >> 8, seen // 2047]))
        file.write((2035).to_bytes(2, "big") + bytes([seen % 251]) * 2036)
END
    python3 "$here/reference.py" expect many.toml many.rec many || no "the reference of many.rec doesn't come to its end"
    rm -rf split
    mkdir split
    gives "split with no memory to hold its packets" 3 "tmx: out of memory" "ulimit -v 8192; $split"
    gives "split to 2,047 files" 0 "" "$split"
    tell "split to 2,047 files: all of it" "$(diff -r many/split split 2>&1)"
    rm -rf many many.rec
}

# More than 64 KiB for each of 300 applications, one after the other: more files than stay open, and than may be open.
few_open_files() {
    local most split="$tmx split --settings few.toml --dir split --report r few.rec"
    settings few.toml 5 2048 false 'secondary = "never"' 'ocf = "never"'
    python3 - <<'END' || no "few.rec isn't made"
with open("few.rec", "wb") as file:
    for seen in range(300 * 35):
        application, count = divmod(seen, 35)
        head = 5 << 36 | seen % 256 << 24 | seen % 256 << 16
        file.write(head.to_bytes(6, "big") + (application << 32 | 3 << 30 | count << 16 | 2035).to_bytes(6, "big"))
        file.write(bytes([seen % 251]) * 2036)
END
    python3 "$here/reference.py" expect few.toml few.rec few || no "the reference of few.rec doesn't come to its end"
    for most in 1000 20; do
        rm -rf split
        mkdir split
        gives "split to 300 files with room for $most open files" 0 "" "ulimit -n $most; $split"
        tell "split to 300 files with room for $most open files: all of it" "$(diff -r few/split split 2>&1)"
    done
    rm -rf few few.rec
}

# A thousand fields that each are nearly all of the longest packet: a row of 262 MB.
wide_row() {
    local fields="$tmx fields --settings wide.toml --definition wide.csv --apid 1 --report r wide.rec"
    {
        echo name,data_type,bit_length,bit_offset
        printf 'N%s,str,524288,48\n' $(seq 0 999)
    } >wide.csv
    gives "a row of 262 MB with 32 MiB" 3 "tmx: out of memory" "ulimit -v 32768; $fields"
    tell "a row of 262 MB with 32 MiB: the head stands alone" "$([ "$(wc -l <out)" = 1 ] || wc out)"
    gives "a row of 262 MB" 0 "" "$fields"
    tell "a row of 262 MB: all of it" "$([ "$(tail -n 1 out | wc -c)" = $((8 + 1000 * (1 + 65536 * 4) + 1)) ] || tail -n 1 out | wc -c)"
}

# The longest packet in its file.
wide_packet() {
    python3 "$here/reference.py" expect wide.toml wide.rec wide || no "the reference of wide.rec doesn't come to its end"
    rm -rf split
    mkdir split
    gives "split of a packet of 65,542 octets" 0 "" "$tmx split --settings wide.toml --dir split --report r wide.rec"
    tell "split of a packet of 65,542 octets: all of it" "$(diff -r wide/split split 2>&1)"
}

# The instructions that `frames` takes for so many frames of the recording `controlled`, by callgrind. It prints nothing where a line is missing.
instructions_for() {
    head -c $(($1 * 1115)) controlled >front
    valgrind --tool=callgrind --callgrind-out-file=counts "$tmx" frames --settings summed front >out 2>err || return
    [ "$(wc -l <out)" != "$1" ] || sed -n 's/^summary: //p' counts
}

# The error control of a frame is computed in vectors of the processor. A small change can make LLVM give them up, and no proof shows it: then a frame
# takes 1,600 instructions, and some 1,030 with vectors.
few_instructions() {
    local few most each name="frames of 1115 octets take few instructions"
    if ! command -v valgrind >/dev/null; then
        skip 1 "$name" "no valgrind"
    elif ! built_by_rt; then
        skip 1 "$name" "the program isn't one that rt has built, so it is compiled otherwise"
    else
        settings summed 42 1115 true
        python3 - <<'END' || no "controlled isn't made"
from binascii import crc_hqx
before = (42 << 36 | 0x1FFE).to_bytes(6, "big") + bytes(1107)
open("controlled", "wb").write((before + crc_hqx(before, 0xFFFF).to_bytes(2, "big")) * 2100)
END
        few=$(instructions_for 100)
        most=$(instructions_for 2100)
        each=$(((${most:-0} - ${few:-0}) / 2000))
        tell "$name: $each" "$([ -n "$few" ] && [ $each -gt 0 ] && [ $each -le 1100 ] || echo "more than 1100, or none")"
    fi
}

# Sparse recordings of 38 GB. The records that are done are passed over, so that the last ones take no longer than the first. And many whole frames.
many() {
    # guards: refusals-and-the-closed-end
    # guards: devices-over-stds-readers-and-writers
    # guards: run-stops-at-one-place-in-both-outputs
    local head="544d5843 03 002a 0009 0000 0000 00 00 00 ff 010006" none="00 0000000000000000 0000"
    names
    settings nine 42 9 false
    rm -f r
    truncate -s $((9 * 4294967296)) sparse
    forged last "$head ffffffff $none"
    gives "2^32 records" 1 "tmx: too many records" "ulimit -t 10; timeout 600 $tmx packets --settings nine --report r --resume last sparse"
    truncate -s $((9 * 4294967295)) sparse
    forged near "$head fffffff0 $none"
    gives "the last of 2^32 - 1 records" 0 "" "ulimit -t 10; timeout 600 $tmx packets --settings nine --report r --resume near sparse"
    tell "the last of 2^32 - 1 records: a line for each" "$(seq 4294967280 4294967294 | sed 's/.*/bad record=& fault=spacecraft/' | diff - r 2>&1)"
    rm sparse
    few_instructions
    plan 4
}
