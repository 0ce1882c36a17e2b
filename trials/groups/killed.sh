# shellcheck shell=bash disable=SC2154
# Group `killed`: runs that a signal ends, and that are resumed.

killed() {
    # guards: devices-over-stds-readers-and-writers
    # guards: a-resumed-job-gives-what-one-run-gives
    # guards: write_held-and-write_out-leave-nothing-held
    # guards: what-a-plan-decides-before-any-file-is-opened
    # guards: a-run-starts-from-its-inputs
    # guards: what-a-run-does-follows-the-plan
    # guards: a-run-with-ok-has-replaced-the-checkpoints-file
    local command word round more long=$folder/long.rec
    for _ in $(seq 600); do cat "$example/pass.rec"; done >"$long"
    for command in packets "packets --binary" extract fields "fields --binary" split; do
        read -r word more <<<"$command"
        [ "$word" != fields ] || more+=" --definition $example/attitude.csv --apid 101"
        for round in $(seq "$ROUNDS"); do
            killed_trial "$command in long steps, round $round" "$word" "$long" 50000 "$round" "$more"
            killed_trial "$command in short steps, round $round" "$word" "$example/pass.rec" $((1 + round % 4 * 3)) "$round" "$more"
            killed_trial "$command of a growing recording, round $round" "$word" "$example/pass.rec" 0 "$round" "$more"
        done
    done
    rm "$long"
    live_trials killed
    stopped
    plan $((18 * (ROUNDS > 0 ? ROUNDS : 1) + 2))
}

# The name of a trial, and the words of killed.py from the command on.
killed_trial() {
    # shellcheck disable=SC2086
    says "$1" python3 "$here/killed.py" "$tmx" "$2" "$example/settings.toml" "$3" "$4" "$5" $6
}

# A run that is stopped and let go on, as by a terminal, before each piece of its recording.
stopped() {
    local pid stops=0
    names
    mkfifo feed
    $packets --report r <feed >out 2>err &
    pid=$!
    exec 8<"$rec" 9>feed
    for _ in $(seq 20); do
        kill -STOP $pid
        has_stopped $pid || break
        stops=$((stops + 1))
        head -c 3840 <&8 >&9
        kill -CONT $pid
        sleep 0.01
    done 2>/dev/null
    kill -CONT $pid 2>/dev/null
    exec 8<&- 9>&-
    wait $pid || echo "status $?" >>err
    rm feed
    tell "packets, stopped and let go on twenty times" \
        "$([ $stops = 20 ] || echo "stopped $stops times; "; cmp out expected/packets 2>&1; cmp r expected/report 2>&1; cat err)"
}

# Whether the system says within a second that a process is stopped.
has_stopped() {
    for _ in $(seq 100); do
        ! grep -q '^State:.T' "/proc/$1/status" || return 0
        sleep 0.01
    done
    return 1
}
