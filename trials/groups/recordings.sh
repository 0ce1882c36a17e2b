# shellcheck shell=bash disable=SC2154
# Groups `random` and `zero`: what recordings give, beside what reference.py says.

number='(0|[1-9][0-9]*)'
fault='(crc|version|spacecraft|secondary-flag|ocf-flag|secondary-version|layout|pointer)'
at="record=$number channel=[0-7]"
frame_line="^(frame $at master=$number count=$number kind=(packets place=$number|(nostart|idle|vca) place=-)"
frame_line+=" secondary=$number ocf=(yes|no) order=[01] segment=[0-3] octets=$number|bad record=$number fault=$fault"
frame_line+="|short record=$number octets=$number)\$"
report_line="^(bad record=$number fault=$fault|mastergap record=$number expected=$number found=$number missing=$number"
report_line+="|gap $at expected=$number found=$number missing=$number|vca $at"
report_line+="|drop $at from=$number at=$number octets=$number reason=(pointer|gap|vca|end|no-start|version|length)"
report_line+="|short record=$number octets=$number|seqgap $at apid=$number expected=$number found=$number missing=$number"
report_line+="|broken $at apid=$number first=$number last=$number reason=(gap|first|unsegmented|end)"
report_line+="|group $at apid=$number first=$number last=$number|stray $at apid=$number count=$number flag=(continuation|last)"
report_line+="|shortpacket $at from=$number at=$number needed=$number found=$number)\$"
summary_line="^(recording records=$number good=$number bad=$number rest=$number|fault word=$fault records=$number"
summary_line+="|master gaps=$number missing=$number|channel channel=[0-7] frames=$number idle=$number vca=$number gaps=$number"
summary_line+=" missing=$number packets=$number octets=$number dropped=$number lost=$number data=$number"
summary_line+="|loss channel=[0-7] reason=(pointer|gap|vca|end|no-start|version|length) parts=$number octets=$number"
summary_line+="|application channel=[0-7] apid=$number packets=$number octets=$number first=$number last=$number gaps=$number"
summary_line+=" missing=$number groups=$number broken=$number strays=$number)\$"

# Further words of a command. The files of `split` go to a folder in the folder that is given.
words_of() {
    case $1 in
    split) echo "--dir $2/split" ;;
    fields) echo "--definition $here/fields.csv --apid $(cat expected/apid)" ;;
    esac
}

# Whether a command gives a report.
has_report() {
    [ "$1" != frames ] && [ "$1" != summary ]
}

# Runs each command over a recording, by its name; the reports go to standard error.
run_by_name() {
    local command
    for command in frames summary packets extract split fields; do
        # shellcheck disable=SC2046
        "$tmx" $command --settings "$1" $(words_of $command found) "$2" >found/$command.out 2>found/$command.report </dev/null ||
            echo "status of $command; "
    done
}

# The same with the recording in a pipe; the reports go to files.
run_in_pipe() {
    local command report
    for command in frames summary packets extract split fields; do
        report="--report found/$command.report"
        has_report $command || report=""
        # shellcheck disable=SC2046,SC2086
        cat "$2" | "$tmx" $command --settings "$1" $report $(words_of $command found) >found/$command.out 2>found/errors ||
            echo "status of $command in a pipe; "
        ! [ -s found/errors ] || echo "errors of $command in a pipe; "
    done
}

# What is wrong with what was found, beside what the reference says.
judge() {
    local command
    for command in frames summary packets extract fields; do
        cmp -s found/$command.out expected/$command || echo "output of $command; "
    done
    for command in frames summary; do
        ! [ -s found/$command.report ] || echo "a report of $command; "
    done
    for command in packets extract split; do
        cmp -s found/$command.report expected/report || echo "report of $command; "
    done
    cmp -s found/fields.report expected/fields.report || echo "report of fields; "
    [ ! -s found/split.out ] || echo "output of split; "
    diff -rq found/split expected/split >/dev/null || echo "files of split; "
}

# What is wrong with the binary forms, beside what the reference says.
judge_binary() {
    local command
    for command in packets fields; do
        # shellcheck disable=SC2046
        "$tmx" $command --binary --settings "$1" --report found/report $(words_of $command found) "$2" >found/octets ||
            echo "status of $command --binary; "
        cmp -s found/octets expected/$command.octets || echo "octets of $command --binary; "
        cmp -s found/report found/$command.report || echo "report of $command --binary; "
        # shellcheck disable=SC2046
        cat "$2" | "$tmx" $command --binary --settings "$1" $(words_of $command found) 2>found/report >found/octets ||
            echo "status of $command --binary in a pipe; "
        cmp -s found/octets expected/$command.octets || echo "octets of $command --binary in a pipe; "
        cmp -s found/report found/$command.report || echo "report of $command --binary in a pipe; "
    done
}

# The sum of a number of the summary, over its lines of a kind.
in_all() {
    grep "^$1 " found/summary.out | sed "s/.* $2=//; s/ .*//" | awk '{ s += $1 } END { printf "%d", s }'
}

# What is wrong with what was found, by itself: lines of no known form, and octets that don't add up.
judge_sums() {
    local octets
    ! grep -qvE "$frame_line" found/frames.out || echo "a line of frames; "
    ! grep -qvE "$summary_line" found/summary.out || echo "a line of the summary; "
    ! grep -qvE "$report_line" found/fields.report || echo "a line of the report; "
    octets=$(sed 's/.* octets=//' found/packets.out | awk '{ s += $1 } END { printf "%d", s }')
    [ "$octets" = "$(stat -c %s found/extract.out)" ] || echo "octets of extract; "
    [ "$octets" = "$(find found/split -type f -exec cat {} + | wc -c)" ] || echo "octets of split; "
    [ "$octets" = "$(in_all channel octets)" ] || echo "octets of the channels in the summary; "
    [ "$octets" = "$(in_all application octets)" ] || echo "octets of the applications in the summary; "
    [ "$(in_all recording bad)" = "$(in_all fault records)" ] || echo "bad frames of the summary; "
    [ "$(in_all channel dropped)" = "$(in_all loss parts)" ] || echo "dropped parts of the summary; "
    [ "$(in_all channel lost)" = "$(in_all loss octets)" ] || echo "dropped octets of the summary; "
    [ "$(in_all channel data)" = $(($(in_all channel octets) + $(in_all channel lost))) ] || echo "data fields of the summary; "
    python3 "$here/reference.py" tiles "$1" found/frames.out found/packets.out found/packets.report ||
        echo "octets are lost or given twice; "
}

# What a recording gives by each command: the name of the trial, settings, recording.
trial() {
    local how wrong=""
    rm -rf expected
    python3 "$here/reference.py" expect "$2" "$3" expected || wrong="the reference; "
    for how in run_by_name run_in_pipe; do
        rm -rf found
        mkdir -p found/split
        wrong+=$(
            $how "$2" "$3"
            judge
        )
    done
    wrong+=$(
        judge_binary "$2" "$3"
        judge_sums "$2"
    )
    tell "$1" "$wrong"
}

make_settings() {
    settings s9 5 9 false
    settings s9e 5 9 true 'ocf = "never"' 'max_packet = 40'
    settings s24 5 24 false 'secondary = "always"' 'ocf = "never"' 'skip_before = 4'
    settings s24o 5 24 true 'secondary = "never"' 'ocf = "always"' 'skip_after = 1' 'max_packet = 7'
    settings s1115 5 1115 true 'skip_before = 4' 'skip_after = 160'
    settings s1115n 5 1115 false 'channels = [6, 1, 2, 4]' 'max_packet = 1100'
    settings s2048 5 2048 false 'skip_before = 1024' 'skip_after = 1024' 'secondary = "always"' 'ocf = "always"'
    settings s2048e 5 2048 true 'secondary = "never"' 'ocf = "never"' 'channels = [3]' 'max_packet = 300'
}

record_length() {
    awk '/^frame_length|^skip/ { s += $3 } END { print s }' "$1"
}

# Random recordings under the settings of these names, in a folder of their own.
random_recordings() {
    local name octets seed kind record most place
    { place=$(mktemp -d -p .) && cd "$place"; } || exit 2
    echo "plan $((20 * $#))"
    make_settings
    for name in "$@"; do
        record=$(record_length "$name")
        most=$LARGEST
        [ "$record" -gt 9 ] || most=$((LARGEST / 4))
        for octets in 0 1 $((record - 1)) "$record" $((record * 50 + record / 2)) "$most"; do
            for kind in random likely; do
                for seed in 1 2 3; do
                    [ "$octets" -gt "$record" ] || [ $seed = 1 ] || continue
                    python3 "$here/reference.py" make $kind $seed "$octets" "$name" >recording || no "the recording isn't made"
                    trial "$octets octets, $kind $seed, settings $name" "$name" recording
                done
            done
        done
    done
}

# Two halves run side by side.
random() {
    # guards: no-octet-is-lost-or-given-twice
    # guards: what-adds-up-in-a-summary
    local short long
    random_recordings s9 s9e s24 s24o >short_frames 2>&1 &
    short=$!
    random_recordings s1115 s1115n s2048 s2048e >long_frames 2>&1 &
    long=$!
    wait $short
    count_part "recordings of short frames" $? short_frames
    wait $long
    count_part "recordings of long frames" $? long_frames
    make_settings
    trial "the example" "$example/settings.toml" "$example/pass.rec"
    head -c "$LARGEST" /dev/urandom >recording
    trial "$LARGEST octets of /dev/urandom" s24 recording
    if [ "$LARGEST" -lt 1048576 ]; then
        skip 6 "damaged lengths of packets" "LARGEST is less than 1 MiB"
    else
        damaged_lengths
    fi
    plan 10
}

damaged_lengths() {
    local name
    python3 "$here/lengths.py" . >figures || no "the recordings with damaged lengths aren't made"
    sed 's/^/note /' figures
    for name in lengths[0-9].*; do
        trial "damaged lengths of packets, settings $name" "$name" "${name%.*}"
    done
    rm -f lengths*
}

zero() {
    local length spacecraft
    head -c 10485760 /dev/zero >zeros
    for length in 9 24 1115; do
        for spacecraft in 0 42; do
            settings z $spacecraft $length false
            trial "10 MiB of zeros: frames of $length octets, spacecraft $spacecraft" z zeros
        done
    done
    settings z 0 24 true
    trial "10 MiB of zeros: frames of 24 octets with error control" z zeros
    rm -rf expected found zeros
    settings z 0 24 false
    gives "packets of /dev/zero, stopped after 100000 records" 0 "" \
        "$tmx packets --settings z --report r --checkpoint c --stop-after 100000 /dev/zero"
    tell "packets of /dev/zero gives two packets for each record" "$([ "$(wc -l <out)" = 200000 ] || echo "$(wc -l <out) lines")"
    plan 9
}

# Random settings and damaged recordings, in one run and in steps.
anything() {
    # guards: a-jobs-checkpoint-is-written-and-read
    # guards: a-resumed-job-gives-what-one-run-gives
    # guards: each-stop-in-an-older-version-costs-at-most-one-line
    # guards: a-run-starts-from-its-inputs
    # guards: what-a-run-does-follows-the-plan
    # guards: a-run-with-ok-has-replaced-the-checkpoints-file
    says anything python3 "$here/anything.py" "$tmx" "$here/fields.csv" "$ANYTHING" 1
    plan 1
}
