# shellcheck shell=bash disable=SC2154
# Group `terminal`: what is said of a fault at a terminal, and that nothing more is said elsewhere.

terminal() {
    # guards: an-explanation-is-one-line-of-visible-characters
    # guards: devices-over-stds-readers-and-writers
    # guards: settingsread-gives-the-settings-or-the-refusal
    # guards: read_checkpoint-reads-versions-1-2-and-3
    # guards: run_and_count-and-split_and_count-tell-what-a-run-gave-and-lost
    # guards: a-second-line-comes-only-where-it-is-wanted
    # guards: which-faults-are-explained
    # guards: which-file-is-blamed
    part terminal.py python3 "$here/terminal.py" "$tmx"
    plan 1
}
