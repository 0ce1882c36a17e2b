#!/bin/bash
# Trials of the built program as an attacker and a broken machine would use it.
#
#   trials/hostile.sh TMX [GROUP..]
#
# TMX is the program. groups.txt has the groups, and README.md says what they are. All are tried where none is named.
# OCTETS is how long the recording of `long` is (2 GiB), ROUNDS how many rounds `killed` has for each command (8), LARGEST how many octets
# the longest recording of `random` has (1 MiB; with less, recordings of 4 MB with damaged lengths of packets are skipped), ANYTHING how
# many seconds `anything` takes (120), PICTURED how many records the longest recording of `pictures` has (1,000,000), and CHUNKED how many
# random recordings `library` has (40). With GIVE_UP it ends behind the first trial that fails.
# Prints a line for each trial: `ok ..`, `FAILED: ..`, or `SKIPPED: ..` where the machine lacks what it needs. What was measured on the way
# stands in lines that begin with `note`. The last line counts: `N ok, N failed, N skipped`. The status is 0 where none failed.

set -u
unset CDPATH TMX_EXPLAIN
here=$(cd "$(dirname "$0")" && pwd)
tmx=$(realpath "${1:?the path of the program tmx is missing}")
shift
[ -z "${LIBRARY:-}" ] || LIBRARY=$(realpath "$LIBRARY")
groups=${*:-$(cat "$here/groups.txt")}
OCTETS=${OCTETS:-2147483648}
ROUNDS=${ROUNDS:-8}
LARGEST=${LARGEST:-1048576}
ANYTHING=${ANYTHING:-120}
PICTURED=${PICTURED:-1000000}
example=$(realpath "$here/../example")
folders=$(mktemp -d) || exit 2
trap 'jobs -pr | xargs -r kill 2>/dev/null; wait; rm -rf "$folders"' EXIT
ulimit -c 0
export LC_ALL=C

passed=0
failed=0
skipped=0
# The trials of the group that runs, and how many it plans.
tried=0
planned=

ok() {
    passed=$((passed + 1)) tried=$((tried + 1))
    echo "ok $1"
}

no() {
    failed=$((failed + 1)) tried=$((tried + 1))
    echo "FAILED: $1"
    [ -z "${GIVE_UP:-}" ] || { say_counts; exit 1; }
}

# So many trials can't be made here: their name, and why.
skip() {
    local number=""
    skipped=$((skipped + $1)) tried=$((tried + $1))
    [ "$1" = 1 ] || number=" ($1 trials)"
    echo "SKIPPED: $2: $3$number"
}

say_counts() {
    echo "$passed ok, $failed failed, $skipped skipped"
}

# Says how a trial went: its name, and what is wrong, if anything. A command that looks for this may not have been ended by a signal.
tell() {
    local looked=$?
    if [ $looked -gt 125 ]; then
        no "$1: status $looked of what looks at it"
    elif [ -z "$2" ]; then
        ok "$1"
    else
        no "$1: $2"
    fi
}

# A trial that a program makes: its name, and the program with its words. It is ok where its status is 0 and it says what it did.
says() {
    local said status
    said=$("${@:2}" 2>&1)
    status=$?
    if [ $status = 0 ] && [ -n "$said" ]; then ok "$1: $said"; else no "$1: status $status: $said"; fi
}

# A program that makes a part of the group's trials: its name, and the program with its words.
part() {
    "${@:2}" >"$folder/part" 2>&1
    count_part "$1" $? "$folder/part"
}

# Counts the trials of a part by what it wrote: its name, its status, and the file. Its lines are `ok ..`, `FAILED: ..`, `SKIPPED: ..` for one
# trial each, `note ..`, and `plan N`: so many trials it means to make. Any other line counts as failed. So does a part that counts no trial or
# not as many as it plans, or whose status is another than 0 though no line failed. In the plan of its group a part stands for one.
count_part() {
    local line plan="" before=$tried faults=$failed counted
    tried=0
    while read -r line || [ -n "$line" ]; do
        case $line in
        "ok "*) ok "${line#ok }" ;;
        "SKIPPED: "*)
            skipped=$((skipped + 1)) tried=$((tried + 1))
            echo "$line"
            ;;
        "note "*) echo "$line" ;;
        "plan "*) plan=${line#plan } ;;
        *) no "${line#FAILED: }" ;;
        esac
    done <"$3"
    counted=$tried
    [ "$2" = 0 ] || [ "$failed" != "$faults" ] || no "$1: status $2"
    if [ "$counted" = 0 ] || [ "$counted" != "$plan" ]; then no "$1: $counted trials are counted, and ${plan:-none} planned"; fi
    tried=$((before + 1))
}

# How many trials a group makes or skips in all. A group that doesn't come to its end has fewer.
plan() {
    planned=$1
}

# Tries a group in a folder of its own, and sees that it made the trials that it plans.
try_group() {
    folder=$folders/$1
    { mkdir -p "$folder" && cd "$folder"; } || exit 2
    tried=0
    planned=
    "$1"
    if [ "$tried" = 0 ] || [ "$tried" != "$planned" ]; then no "$1: $tried trials are made, and ${planned:-none} planned"; fi
}

# The name of a trial, the status and the line on standard error that are wanted, and a command line for bash.
# Standard output goes to the file `out`, standard error to `err`.
gives() {
    local found
    bash -c "$4" >out 2>err </dev/null
    found=$?
    printf '%s' "${3:+$3
}" >wanted
    if [ "$found" != "$2" ]; then
        no "$1: status $found, not $2: $(head -c 300 err)"
    elif ! cmp -s err wanted; then
        no "$1: standard error is: $(head -c 300 err)"
    else
        ok "$1"
    fi
}

# A settings file of this name: the spacecraft, the frame length, error control, and further lines.
settings() {
    local name=$1
    printf 'spacecraft = %s\nframe_length = %s\nerror_control = %s\n' "$2" "$3" "$4" >"$name"
    shift 4
    [ $# = 0 ] || printf '%s\n' "$@" >>"$name"
}

# A file of so many octets that begins with another, filled up with line ends.
filled() {
    { cat "$2"; head -c 1048577 /dev/zero | tr '\0' '\n'; } | head -c "$3" >"$1"
}

# A recording of the longest packet, which lies over 33 frames.
wide_recording() {
    settings wide.toml 5 2048 false 'secondary = "never"' 'ocf = "never"'
    python3 - <<'END' || no "wide.rec isn't made"
packets = bytes.fromhex("0001c000ffff") + bytes(65536) + bytes.fromhex("07ffc000") + (1837).to_bytes(2, "big") + bytes(1838)
with open("wide.rec", "wb") as file:
    for count in range(33):
        pointer = {0: 0, 32: 198}.get(count, 2047)
        head = 5 << 36 | count << 16 | pointer
        file.write(head.to_bytes(6, "big") + packets[count * 2042 : (count + 1) * 2042])
END
}

# Names for the trials of devices, files and faults. The groups use them.
# shellcheck disable=SC2034
names() {
    s=$example/settings.toml
    rec=$example/pass.rec
    packets="$tmx packets --settings $s"
    extract="$tmx extract --settings $s"
    split="$tmx split --settings $s --dir split"
    rm -rf expected split
    mkdir -p split
    python3 "$here/reference.py" expect "$s" "$rec" expected || no "the reference doesn't come to its end"
    fields="$tmx fields --settings $s --definition $here/fields.csv --apid $(cat expected/apid)"
}

for file in "$here"/groups/*.sh; do
    # shellcheck disable=SC1090
    . "$file"
done
for group in $groups; do
    try_group "$group"
done
[ $((passed + failed + skipped)) != 0 ] || no "no group is tried"
say_counts
[ $failed = 0 ]
