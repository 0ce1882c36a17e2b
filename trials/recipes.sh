#!/bin/bash
# Runs the recipes of docs/RECIPES.md, and compares what they print with what the page says.
#
#   trials/recipes.sh TMX [WORD..]
#
# TMX is the program. With WORDs only those sections are run whose headings have one of them; the first one always is, since the others
# begin with its files. Commands are the blocks `sh` of the page, and what they print, standard error too, is the block behind each.
# Blocks of another kind are passed over. A section whose packages aren't there is left out and named, one that doesn't say what it
# needs, or has no commands, is named as failed. Nothing is installed.
#
# Prints a line for each block, and a count at the end. The status is 0 where none failed. KEEP=1 keeps the folder in which they ran.
set -u
unset CDPATH
here=$(cd "$(dirname "$0")/.." && pwd)
page=$here/docs/RECIPES.md
tmx=$(realpath "${1:?the path of the program tmx is missing}")
shift
folder=$(mktemp -d) || exit 2
[ -n "${KEEP:-}" ] || trap 'rm -rf "$folder"' EXIT
mkdir "$folder/bin" "$folder/blocks" "$folder/work"
ln -s "$tmx" "$folder/bin/tmx"
# Debian's own Python has Debian's packages, whatever another one stands before it.
[ ! -x /usr/bin/python3 ] || ln -s /usr/bin/python3 "$folder/bin/python3"
ln -s "$here/example" "$folder/work/example"
export PATH=$folder/bin:$PATH LC_ALL=C.UTF-8 PYTHONPATH=$here/python PYTHONDONTWRITEBYTECODE=1
cd "$folder/work" || exit 2
passed=0
failed=0
left_out=""

# Cuts the page into files: NN.heading, NN.needs, and for each block of commands NN-MM.sh, with NN-MM.out behind it.
cut_page() {
    awk -v folder="$folder/blocks" '
        /^```/ && to { close(to); to = ""; next }
        /^```sh$/ { to = sprintf("%s/%02d-%02d.sh", folder, section, ++block); printf "" > to; next }
        /^```$/ { to = sprintf("%s/%02d-%02d.out", folder, section, block); printf "" > to; next }
        /^```/ { to = "/dev/null"; next }
        to { print > to; next }
        /^## / { ++section; block = 0; print substr($0, 4) > sprintf("%s/%02d.heading", folder, section) }
        /^Needs / { print > sprintf("%s/%02d.needs", folder, section) }
    ' "$page"
}

# Whether a package of Debian is there, by what it brings.
is_there() {
    case $1 in
    coreutils) command -v tail ;;
    mawk) command -v awk ;;
    miller) command -v mlr ;;
    python3-*) python3 -c "import ${1#python3-}" ;;
    *) command -v "$1" ;;
    esac >/dev/null 2>&1
}

# The packages of a section that aren't there.
missing() {
    local package
    for package in $(grep -o '`[^`]*`' "$1" | tr -d '`'); do
        is_there "$package" || echo "$package"
    done | paste -s -d ' '
}

# Whether a section was asked for.
wanted() {
    local section=$1 word
    shift
    [ $# != 0 ] && [ "$section" != 01 ] || return 0
    for word in "$@"; do
        ! grep -qiF -- "$word" "$folder/blocks/$section.heading" || return 0
    done
    return 1
}

# Runs a block; what it prints has to be what the page says.
run_block() {
    local name=$1 block=$2 status
    timeout 300 bash "$block.sh" >"$block.found" 2>&1 </dev/null
    status=$?
    if [ $status = 124 ]; then
        echo "FAILED: $name: it took more than 300 seconds"
    elif [ $status -gt 124 ]; then
        echo "FAILED: $name: status $status"
    elif [ ! -e "$block.out" ]; then
        echo "FAILED: $name: the page doesn't say what comes out"
    elif cmp -s "$block.out" "$block.found"; then
        passed=$((passed + 1))
        echo "ok $name"
        return
    else
        echo "FAILED: $name"
        diff "$block.out" "$block.found" | head -n 20
    fi
    failed=$((failed + 1))
}

# Runs the blocks of a section one after the other, in one folder with all others.
run_section() {
    local section=$1 name lack block
    name=$(cat "$folder/blocks/$section.heading")
    if [ ! -e "$folder/blocks/$section.needs" ] || [ ! -e "$folder/blocks/$section-01.sh" ]; then
        echo "FAILED: $name: the page doesn't say what it needs, or has no commands"
        failed=$((failed + 1))
        return
    fi
    lack=$(missing "$folder/blocks/$section.needs")
    if [ -n "$lack" ]; then
        left_out+="left out: $name: no $lack"$'\n'
        return
    fi
    for block in "$folder/blocks/$section"-*.sh; do
        run_block "$name, ${block: -5:2}" "${block%.sh}"
    done
}

cut_page
for word in "$@"; do
    grep -qiF -- "$word" "$folder"/blocks/*.heading && continue
    echo "FAILED: no heading has $word"
    failed=$((failed + 1))
done
for heading in "$folder"/blocks/*.heading; do
    section=$(basename "$heading" .heading)
    ! wanted "$section" "$@" || run_section "$section"
done
printf '%s' "$left_out"
[ -z "${KEEP:-}" ] || echo "note the files are in $folder"
echo "$passed ok, $failed failed"
[ $failed = 0 ]
