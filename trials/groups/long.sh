# shellcheck shell=bash disable=SC2154
# Group `long`: a recording that is much larger than the memory.

# Copies of the example without end.
copies() {
    while cat copies; do :; done 2>/dev/null
}

# Runs the program with 32 MiB of address space over OCTETS octets in a pipe. Its status goes to `status`, the lines and
# octets of its standard output to `counts`, and its greatest address space and resident size to `peak`.
run_limited() {
    local reader
    rm -f pid peak
    copies | head -c "$OCTETS" |
        {
            (
                ulimit -v 32768
                echo "$BASHPID" >pid
                exec "$tmx" "$@"
            ) 2>err
            echo $? >status
        } | wc -lc >counts &
    reader=$!
    until [ -s pid ]; do sleep 0.01; done
    while grep -E '^Vm(Peak|HWM)' "/proc/$(cat pid)/status" >peak.now 2>/dev/null; do
        ! [ -s peak.now ] || mv peak.now peak
        sleep 0.02
    done
    wait $reader
}

# The lines (-l) or octets (-c) of a file of the reference, for all copies of the example and the rest: each further
# copy adds what the third adds to two.
for_copies() {
    local two three
    two=$(wc "$1" <"expected2/$2")
    three=$(wc "$1" <"expected3/$2")
    echo $((two + (OCTETS / 76800 - 2) * (three - two)))
}

# What is wrong after a command over all copies.
judge_long() {
    local lines octets report=report
    read -r lines octets <counts
    [ "$(cat status)" = 0 ] || echo "status $(cat status); "
    ! [ -s err ] || echo "errors: $(head -c 200 err); "
    case $1 in
    extract) [ "$octets" = "$(for_copies -c extract)" ] || echo "$octets octets, not $(for_copies -c extract); " ;;
    split) [ "$(find found -type f -exec stat -c %s {} + | awk '{ s += $1 } END { printf "%d", s }')" = "$(for_copies -c extract)" ] ||
        echo "octets of the files; " ;;
    *) [ "$lines" = "$(for_copies -l "$1")" ] || echo "$lines lines, not $(for_copies -l "$1"); " ;;
    esac
    [ "$1" != fields ] || report=fields.report
    ! has_report "$1" || [ "$(wc -l <report)" = "$(for_copies -l $report)" ] || echo "$(wc -l <report) lines of the report; "
}

long() {
    local command words begun time copy
    for copy in 2 3; do
        {
            for _ in $(seq $copy); do cat "$example/pass.rec"; done
            head -c $((OCTETS % 76800)) "$example/pass.rec"
        } >recording
        python3 "$here/reference.py" expect "$example/settings.toml" recording expected$copy || no "the reference doesn't come to its end"
    done
    rm -rf expected
    cp -r expected2 expected
    for _ in $(seq 200); do cat "$example/pass.rec"; done >copies
    for command in frames summary packets extract split fields; do
        rm -rf found
        mkdir -p found/split
        words="$command --settings $example/settings.toml $(words_of $command found)"
        ! has_report $command || words+=" --report report"
        begun=$(date +%s%N)
        # shellcheck disable=SC2086
        run_limited $words
        time=$((($(date +%s%N) - begun) / 1000000))
        tell "$command of $OCTETS octets in a pipe, with 32 MiB of address space" "$(judge_long $command)"
        echo "note $command: $time ms, $((OCTETS / 1000 / time)) MB/s, $(tr -s '\t\n ' ' ' <peak)"
    done
    rm -rf found report copies
    plan 6
}
