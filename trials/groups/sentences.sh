# shellcheck shell=bash disable=SC2154
# Group `sentences`: what the pages say that a line, a status or a command means, over recordings whose truth is known.

sentences() {
    part sentences.py python3 "$here/sentences.py" "$tmx"
    plan 1
}
