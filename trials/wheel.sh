#!/bin/bash
# Installs the wheel of ./package as users do, and runs it there.
#
#   trials/wheel.sh WHEEL PACKETS
#
# PACKETS is a file of what `tmx packets` prints of the example. Each Python from 3.11 on that is here is tried: in a fresh environment that is
# not activated, and below a folder that pip's --target names; from an empty folder, with an empty PATH. Where root runs this, the user nobody
# does all that, if that user can start this Python. An older Python has to refuse the wheel, and the package in the clone.
# Prints a line `ok ..`, `FAILED: ..` or `SKIPPED: ..` for each trial, and at the end `plan N`: so many trials there are.
set -u
unset CDPATH
here=$(cd "$(dirname "$0")" && pwd)
wheel=$(realpath "${1:?the wheel is missing}")
packets=$(realpath "${2:?the file of packets is missing}")
work=$(mktemp -d) || exit 2
trap 'rm -rf "$work"' EXIT
cp "$wheel" "$packets" "$here"/../example/{pass.rec,settings.toml} "$here/../docs/loss_map.svg" "$work"
mkdir "$work/empty" "$work/made"
chmod -R a+rX "$work"
wheel=$work/${wheel##*/} packets=$work/${packets##*/}
cd "$work/empty" || exit 2
tried=0
what="import sys; print('%d%03d%03d' % sys.version_info[:3], sys.executable)"
picture=(--title "The example recording" --settings "$work/settings.toml" "$work/pass.rec")
recording="tmx.Recording('$work/pass.rec', '$work/settings.toml')"

# tell NAME WRONG: says how a trial went. A command that looks for this may not have been ended by a signal.
tell() {
    local looked=$?
    tried=$((tried + 1))
    if [ $looked -gt 125 ]; then echo "FAILED: $1: status $looked of what looks at it"; elif [ -z "$2" ]; then echo "ok $1"; else echo "FAILED: $1: $(head -c 300 <<<"$2" | tr '\n' ' ')"; fi
}

# The user that runs this Python: nobody, if that user can.
choose_user() {
    local as_nobody=(setpriv --reuid=nobody --regid=nogroup --clear-groups)
    user=()
    if [ "$(id -u)" = 0 ] && [ "$("${as_nobody[@]}" "$1" -c "$what" 2>/dev/null)" = "$("$1" -c "$what")" ]; then
        user=("${as_nobody[@]}")
        chown nobody:nogroup "$work/made"
    fi
}

# install PYTHON WORD..: has pip install the wheel.
install() {
    "${user[@]}" env HOME="$work/made" TMPDIR="$work/made" PIP_DISABLE_PIP_VERSION_CHECK=1 "$1" -m pip install --quiet --no-index --no-cache-dir "${@:2}" 2>&1
}

# bare WORD..: runs a command as that user, and with nothing in the environment but an empty PATH.
bare() {
    "${user[@]}" env -i PATH= "$@" 2>&1
}

# gives FILE WORD..: how what such a command prints differs from a file, and its status if that isn't 0.
gives() {
    bare "${@:2}" >"$work/given" || echo "status $?"
    cmp "$work/given" "$1" 2>&1
}

# try_place NAME PROGRAM COMMAND..: what a wheel brings, by the command that starts Python there.
try_place() {
    tell "$1: the package gives the packets" "$(gives "$packets" "${@:3}" -c "import tmx; print(*$recording.packets(), sep='\n')")"
    tell "$1: the program beside it is run" "$(gives <(echo package) "${@:3}" -c "import tmx; print(tmx.program().by)")"
    tell "$1: the command tmx" "$(gives "$packets" "$2" packets --settings "$work/settings.toml" --report /dev/null "$work/pass.rec")"
    tell "$1: python -m tmx" "$(gives "$work/loss_map.svg" "${@:3}" -m tmx map "${picture[@]}")"
    tell "$1: the command tmx-map" "$(gives "$work/loss_map.svg" "${2%/*}/tmx-map" "${picture[@]}")"
    [[ $with_library = no ]] ||
        tell "$1: the library beside it" \
            "$(gives <(echo "Given(packets=[], report=[])") "${@:3}" -c "import tmx; print(tmx.Engine('$work/settings.toml').close())")"
}

# try_python PYTHON: all that this Python does with the wheel.
try_python() {
    local name made place=$work/made/$tried
    choose_user "$1"
    name="$("$1" --version) as $("${user[@]}" id -un)"
    if ! "${user[@]}" "$1" -c "import venv, ensurepip" 2>/dev/null; then
        tried=$((tried + 1))
        echo "SKIPPED: $name: no environment can be made: no venv or no ensurepip"
        return
    fi
    made=$("${user[@]}" "$1" -m venv "$place.env" 2>&1) || { tell "$name: an environment is made" "status $?: $made" && return; }
    tell "$name: pip takes the wheel with --target" "$(install "$place.env/bin/python" --target "$place.to" "$wheel")"
    try_place "$name, --target" "$place.to/bin/tmx" PYTHONPATH="$place.to" "$1"
    tell "$name: pip takes the wheel" "$(install "$place.env/bin/python" "$wheel")"
    try_place "$name" "$place.env/bin/tmx" "$place.env/bin/python"
}

# refuse_old PYTHON: an older one says what it needs.
refuse_old() {
    user=()
    tell "an older Python refuses the wheel" "$(install "$1" --target "$work/old" "$wheel" | grep -q "different Python.*>=3.11" || echo "it doesn't")"
    tell "an older Python refuses the clone's package" \
        "$(install "$1" --target "$work/old" "$here/../python" | grep -q "tmx needs Python 3.11 or later, and this is 3.10" || echo "it doesn't")"
}

# The Pythons here that can be started: the number of the version, as 3011002 for 3.11.2, and the path, one of each version.
pythons() {
    local python
    for python in python3 /usr/bin/python3 python3.{10..19} "${PYENV_ROOT:-${HOME:-/}/.pyenv}"/versions/3.*/bin/python3; do
        "$python" -c "$what" 2>/dev/null
    done | sort -s -n -u -k 1,1
}

with_library=no
python3 -m zipfile -l "$wheel" | grep -q "^tmx/lib/libtmx.so " && with_library=yes
list=$(pythons) && [ -n "$list" ] || tell "there is a Python" "none can be started"
while read -r version python; do
    [ -n "$version" ] || continue
    if [ "$version" -ge 3011000 ]; then
        try_python "$python"
    elif [ "$version" -ge 3010000 ]; then
        refuse_old "$python"
    fi
done <<<"$list"
echo "plan $tried"
