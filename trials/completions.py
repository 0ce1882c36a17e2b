#!/usr/bin/env python3
"""Compares the completions with what the program's help says.

    trials/completions.py TMX BASH ZSH FISH

TMX is the program, and the others are the files of the three shells. bash is asked what it would complete. The words of zsh and
fish are read off their files. Prints a line `ok ..` or `FAILED: ..` for each comparison,
behind `plan N` for all.
"""

import re
import subprocess
import sys
import tempfile
from pathlib import Path

# What each value in the help completes to.
KINDS = {None: "none", "FILE": "files", "DIR": "folders", "N": "nothing"}

ASK = """
. "$1"
shift
COMP_WORDS=("$@")
COMP_CWORD=$(($# - 1))
_tmx
printf '%s\\n' "${COMPREPLY[@]}"
"""


def help_of(tmx, *words):
    """The commands and the options in the help for these words: a list, and the kind of value of each option."""
    text = subprocess.run([tmx, *words, "--help"], capture_output=True, text=True, check=True).stdout
    commands = re.findall(r"^  (\w+) ", text.partition("\nCommands:\n")[2].partition("\n\n")[0], re.M)
    options = {}
    for line in text.partition("\nOptions:\n")[2].partition("\n\n")[0].splitlines():
        short, long, value = re.match(r"\s+(?:(-\w), )?(--[\w-]+)(?: <(\w+)>)?", line).groups()
        for name in filter(None, (short, long)):
            options[name] = KINDS[value]
    return commands, options


def ask_bash(file, *words):
    """What bash would put for the last of the words, in a folder with a file and a folder."""
    with tempfile.TemporaryDirectory() as folder:
        Path(folder, "a file").touch()
        Path(folder, "a folder").mkdir()
        asked = subprocess.run(["bash", "-c", ASK, "bash", file, *words], cwd=folder, capture_output=True, text=True)
    return [f"bash: {asked.stderr.strip()}"] if asked.stderr else asked.stdout.splitlines()


def kind_of_bash(file, *words):
    """What bash completes the value of an option to."""
    names = {(): "nothing", ("a folder",): "folders", ("a file", "a folder"): "files"}
    found = tuple(sorted(filter(None, ask_bash(file, *words, ""))))
    return names.get(found, f"{found}")


def words_of_bash(file, command):
    """The options that bash completes, each with what its value is completed to."""
    before = ["tmx", command] if command else ["tmx"]
    options, names = {}, ask_bash(file, *before, "-")
    for name in names:
        is_flag = ask_bash(file, *before, name, "-") == names
        options[name] = "none" if is_flag else kind_of_bash(file, *before, name)
        if options[name] == "files" and kind_of_bash(file, *before, name, "=") != "files":
            options[name] = "nothing behind ="
    return options


def words_of_zsh(text, command):
    """The options in zsh's file: those of `case` arms that name the command, or those before `case`."""
    head, _, arms = text.partition("case $words[1] in")
    tail = [lines for names, lines in re.findall(r"^    ([\w|]+)\)\n(.*?)^        ;\|", arms, re.M | re.S) if command in names.split("|")]
    part = "".join([head.partition("\n    options=")[2], *tail]) if command else head.partition("\n    options=")[0]
    options = {}
    for names, end in re.findall(r"\{([-\w,]+)\}'\[[^\]]*\]([^']*)'", part):
        options |= {name: "none" if not end else end for name in names.split(",")}
    ends = {"": "none", "=:FILE:_files": "files", "=:DIR:_files -/": "folders", "=:N:": "nothing"}
    for name, sign, end in re.findall(r"'(--[\w-]+)(=?)\[[^\]]*\]([^']*)'", part):
        options[name] = ends.get(sign + end, sign + end)
    return options


def words_of_fish(text, command):
    """The options in fish's file: those behind a condition that names the command, or that there is none."""
    options, among = {}, []
    for line in text.splitlines():
        if found := re.match(r"set -l command '__tmx_command_is ([\w ]+)'$", line):
            among = found[1].split()
        if not (found := re.match(r"complete -c tmx -n (\S+)(?: -s (\w))?(?: -l ([\w-]+))?(.*) -d '", line)) or not (found[2] or found[3]):
            continue
        if (command in among) if found[1] == "$command" else not command:
            ends = {"": "none", " -r -F": "files", " -x -a '(__fish_complete_directories)'": "folders", " -x": "nothing"}
            for name in filter(None, (found[2] and f"-{found[2]}", found[3] and f"--{found[3]}")):
                options[name] = ends.get(found[4], found[4])
    return options


def tell(name, found, wanted):
    """Prints how a comparison went."""
    print(f"ok {name}" if found == wanted else f"FAILED: {name}: {found}, not {wanted}")


def main():
    tmx, bash, zsh, fish = (str(Path(word).resolve()) for word in sys.argv[1:])
    texts = {name: Path(file).read_text() for name, file in (("zsh", zsh), ("fish", fish))}
    commands, _ = help_of(tmx)
    print(f"plan {6 + 5 * len(commands)}")
    tell("bash completes the commands", ask_bash(bash, "tmx", ""), commands)
    tell("zsh completes the commands", re.findall(r"^        '([a-z]+):", texts["zsh"], re.M), commands)
    tell("fish completes the commands", re.findall(r"__tmx_command_is -a (\w+)", texts["fish"]), commands)
    for command in [None, *commands]:
        _, wanted = help_of(tmx, *filter(None, [command]))
        name = f"the options of {command or 'tmx itself'}"
        tell(f"bash completes {name}", words_of_bash(bash, command), wanted)
        tell(f"zsh completes {name}", words_of_zsh(texts["zsh"], command), wanted)
        tell(f"fish completes {name}", words_of_fish(texts["fish"], command), wanted)
        if command:
            tell(f"bash completes the long options of {command}", sorted(ask_bash(bash, "tmx", command, "--")), sorted(n for n in wanted if n[1] == "-"))
            tell(f"bash completes the recording of {command}", kind_of_bash(bash, "tmx", command), "files")


if __name__ == "__main__":
    main()
