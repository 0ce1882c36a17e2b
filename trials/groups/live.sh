# shellcheck shell=bash disable=SC2154
# Group `live`: a recording that comes piece by piece through a pipe which stays open.

live() {
    # guards: the-contracts-that-devices-keep
    # guards: list_frames-lists-the-whole-recording
    # guards: what-a-run-reads-and-when-it-flushes
    # guards: write_held-and-write_out-leave-nothing-held
    live_trials waiting
    plan 1
}

# A part of live.py.
live_trials() {
    part "live.py $1" python3 "$here/live.py" "$tmx" "$here/fields.csv" "$example" "$1"
}
