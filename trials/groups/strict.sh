# shellcheck shell=bash disable=SC2154
# Group `strict`: what a run with --strict says of losses by its status, and in a line, beside what reference.py counts.

# What is wrong with the status and the line of a command: it, its further words, the settings, the status, the line.
judge_strict() {
    local status report="--report report"
    [ "$1" != summary ] || report=""
    # shellcheck disable=SC2086
    TMX_EXPLAIN=1 "$tmx" $1 --strict $2 --settings "$3" $report <recording >out 2>said
    status=$?
    [ $status = "$4" ] || echo "status $status of $1, not $4; "
    [ "$1" = summary ] || [ "$(cat said)" = "$5" ] || echo "$1 says $(cat said), not $5; "
    # shellcheck disable=SC2086
    "$tmx" $1 $2 --settings "$3" $report <recording >plain 2>&1 || echo "status $? of $1 without --strict; "
    cmp -s out plain || echo "output of $1; "
}

# A recording by each command: the name of the trial, the settings, and two applications, one of which came.
strict_trial() {
    local command words status said wrong="" next=0 wanted=("$3" "$4")
    mkdir -p split
    python3 "$here/reference.py" strict "$2" recording "${wanted[@]}" >expected || wrong="the reference; "
    while read -r command status said; do
        words=""
        case $command in
        split) words="--dir split" ;;
        fields)
            words="--definition $here/fields.csv --apid ${wanted[next]}"
            next=$((next + 1))
            ;;
        esac
        [ -z "$said" ] || said="  $said"
        wrong+=$(judge_strict "$command" "$words" "$2" "$status" "$said")
        counted[status]=$((${counted[status]:-0} + 1))
    done <expected
    tell "$1" "$wrong"
}

strict() {
    # guards: totals-count-what-a-run-gave-and-lost
    # guards: each-number-is-a-count-over-whole-lists
    # guards: run_and_count-and-split_and_count-tell-what-a-run-gave-and-lost
    # guards: with---strict-the-status-says-what-was-lost
    local settings kind octets seed record application known=0 counted=()
    make_settings
    for settings in s9 s9e s24 s24o s1115 s1115n s2048e; do
        record=$(record_length $settings)
        for octets in 0 "$record" $((record * 3)) $((record * 40 + record / 2)); do
            for kind in random likely; do
                for seed in 4 5; do
                    python3 "$here/reference.py" make $kind $seed "$octets" $settings >recording || no "the recording isn't made"
                    application=$(application_in $settings)
                    [ "$application" = 0 ] || known=$((known + 1))
                    strict_trial "$octets octets, $kind $seed, settings $settings" $settings 999 "$application"
                done
            done
        done
    done
    # One frame with two packets.
    settings whole 42 24 false
    printf '\2\240\0\0\30\0\0d\300\0\0\0U\0d\300\1\0\4UUUUU' >recording
    strict_trial "a recording without a loss" whole 999 100
    cp "$example/pass.rec" recording
    strict_trial "the example" "$example/settings.toml" 999 101
    tell "each status is wanted of some run: ${counted[0]:-0}, ${counted[4]:-0} and ${counted[5]:-0}" \
        "$([ "${#counted[@]}" = 3 ] || echo "${#counted[@]} statuses"; [ $known != 0 ] || echo "no application is found")"
    plan 115
}

# The application of most packets of the recording; 0 where it has none.
application_in() {
    set -o pipefail
    "$tmx" packets --settings "$1" --report /dev/null recording | sed 's/.* apid=//; s/ .*//' | sort | uniq -c | sort -rn |
        awk 'NR == 1 { found = $2 } END { print found + 0 }' || echo "status $?"
}
