# shellcheck shell=bash disable=SC2154
# Group `arguments`: what the docs say of the words of the command line, beside what help says, and the commands that they show.

arguments() {
    part arguments.py python3 "$here/arguments.py" "$tmx"
    part blocks.py python3 "$here/blocks.py" "$tmx"
    plan 2
}
