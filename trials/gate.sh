#!/bin/bash
# Tries the trials themselves, and ./test: they have to fail where they can't do their work.
#
#   trials/gate.sh TMX GROUP..
#
# TMX is the program. Each group is run with a `python3` that is killed at once, and, where a part of it is a program in Python, with one that
# ends in order after two lines. It is run with a program that fails and prints nothing, and with one that answers 0 to everything. Its status
# has to be another than 0, and its last line has to count failures. `library` takes the library that LIBRARY names, without a compiler: so its
# Python parts alone are tried. It is run besides with a program that drops an octet where it goes on from a checkpoint, and with a library that
# tells a length one octet too large. Each run ends at its first failure. Groups of a few lines show each rule by which trials are counted, and so does
# a copy of ./test over stubs. bugs.py has to fail on planted bugs of a small crate that no contract refuses, and without a prover. Prints a line for
# each trial and a count, as hostile.sh does.
set -u
unset CDPATH
here=$(cd "$(dirname "$0")" && pwd)
tmx=$(realpath "${1:?the path of the program tmx is missing}")
shift
[ -z "${LIBRARY:-}" ] || LIBRARY=$(realpath "$LIBRARY")
folder=$(mktemp -d) || exit 2
trap 'end_jobs; rm -rf "$folder"' EXIT
cd "$folder" || exit 2
export GIVE_UP=1 LARGEST=65536 ANYTHING=1 ROUNDS=1 PICTURED=400 CHUNKED=1
python=$(command -v python3)
with_parts="live pictures python install terminal arguments sentences library"
passed=0
failed=0
skipped=0

# Ends what runs in the background.
end_jobs() {
    jobs -pr | xargs -r kill 2>/dev/null
    wait
}

# Says how a trial went: its name, and what is wrong, if anything. A command that looks for this may not have been ended by a signal.
tell() {
    local looked=$?
    if [ $looked -gt 125 ]; then
        failed=$((failed + 1))
        echo "FAILED: $1: status $looked of what looks at it"
    elif [ -z "$2" ]; then
        passed=$((passed + 1))
        echo "ok $1"
    else
        failed=$((failed + 1))
        echo "FAILED: $1: $2"
    fi
}

# So many trials can't be made here: their name, and why.
skip() {
    skipped=$((skipped + $1))
    echo "SKIPPED: $2: $3"
}

# A program of this name, from standard input.
program() {
    mkdir -p "$(dirname "$1")"
    { echo "#!/bin/bash"; cat; } >"$1"
    chmod 755 "$1"
}

# Stands for a program or for python3, each in the folder of a case.
make_stubs() {
    program killed/python3 <<<'kill -KILL $$'
    program short/python3 <<<"'$python' \"\$@\" 2>&1 | head -n 2"
    program failing/tmx <<<'exit 1'
    program silent/tmx <<<'exit 0'
    program dropping/tmx <<<"if [[ \" \$* \" == *' --resume '* ]]; then '$tmx' \"\$@\" | head -c -1; else exec '$tmx' \"\$@\"; fi"
}

# A library whose calls of tmx_run tell one octet too many of the report. Without a C compiler it is none at all.
make_wrong_library() {
    local words="const struct tmx_request *a, uint8_t *b, size_t c, uint8_t *d, size_t e, uint8_t *f, size_t g, struct tmx_answer *answer"
    mkdir -p longer/libtmx
    ar -x --output longer "$LIBRARY/libtmx.a" && objcopy --redefine-sym tmx_run=right_run longer/tmx.o \
        && gcc -shared -fPIC -I "$here/../include" -o longer/libtmx/libtmx.so longer/tmx.o -x c - <<END
#include "tmx.h"
uint32_t right_run($words);
uint32_t tmx_run($words) {
    uint32_t status = right_run(a, b, c, d, e, f, g, answer);
    answer->report_length++;
    return status;
}
END
}

# Links to all programs of the PATH but compilers.
without_compilers() {
    local place
    mkdir plain
    while read -rd : place; do
        find -L "$place" -maxdepth 1 -type f ! -name gcc ! -name g++ ! -name rustc -exec ln -st plain {} + 2>/dev/null
    done <<<"$PATH:"
}

# What a case is called.
name_of() {
    case $1 in
    killed) echo "with a python3 that is killed" ;;
    short) echo "with a python3 that ends after two lines" ;;
    failing) echo "with a program that fails and prints nothing" ;;
    silent) echo "with a program that answers 0 to everything" ;;
    dropping) echo "with a program that drops an octet where it goes on" ;;
    longer) echo "with a library that tells a length one octet too large" ;;
    esac
}

# The cases of a group.
cases_of() {
    echo killed failing silent
    [[ " $with_parts " != *" $1 "* ]] || echo short
    [ "$1" != library ] || echo dropping longer
}

# How a run ended, by its status and the file that it wrote: `as a failure`, or with what.
ended() {
    local counts
    counts=$(tail -n 1 "$2" | grep -xE '[0-9]+ (ok|passed), [0-9]+ failed, [0-9]+ skipped')
    if [ "$1" = 0 ] || [ "$1" -gt 123 ] || [ -z "$counts" ] || [[ $counts == *" 0 failed,"* ]]; then
        echo "status $1, last line: $(tail -n 1 "$2")"
    else
        echo "as a failure"
    fi
}

# Says of a run that has to fail how it ended: its name, and what the function above says.
tell_failed() {
    local wrong=""
    [ "$2" = "as a failure" ] || wrong=${2:-it has no end}
    tell "$1 fails" "$wrong"
}

# Runs a group as a case has it. How it ended goes to a file. Standard error goes to one of its own: bash says there, at any time, which of its
# programs was killed.
run_group() {
    local used=$tmx path=$folder/$1:$PATH
    local -x LIBRARY=${LIBRARY:-}
    [ ! -e "$1/tmx" ] || used=$folder/$1/tmx
    [ ! -e "$1/libtmx" ] || LIBRARY=$folder/$1/libtmx
    [ "$2" != library ] || path=$folder/$1:$folder/plain
    PATH=$path timeout 100 "$here/hostile.sh" "$used" "$2" >"$1/$2" 2>"$1/$2.errors" </dev/null
    ended $? "$1/$2" >"$1/$2.ended"
}

# Each group in each case, as many at once as there are processors. Each says by its file how it ended.
run_groups() {
    local group case running=0
    for group in "$@"; do
        for case in $(cases_of "$group"); do
            [ $((running += 1)) -le "$(nproc)" ] || wait -n
            { trap end_jobs EXIT; run_group "$case" "$group"; } &
        done
    done
    wait
}

try_groups() {
    local group case
    make_stubs
    [[ " $* " != *" library "* ]] || make_wrong_library 2>/dev/null
    without_compilers
    run_groups "$@"
    for group in "$@"; do
        for case in $(cases_of "$group"); do
            if tail -n 1 "$case/$group" | grep -qxE '0 ok, 0 failed, [1-9][0-9]* skipped'; then
                skip 1 "$group $(name_of "$case") fails" "all its trials are skipped here"
            else
                tell_failed "$group $(name_of "$case")" "$(cat "$case/$group.ended")"
            fi
        done
    done
}

# Groups of hostile.sh that break a rule each, but for the first.
small_groups() {
    cat <<'END'
in_order() {
    ok a
    part b printf '%s\n' "plan 2" "ok c" "SKIPPED: d: e" "note f"
    says g echo h
    skip 3 i j
    plan 6
}
that_counts_nothing() { plan 0; }
without_a_plan() { ok a; }
with_fewer_trials_than_it_plans() { ok a; plan 2; }
with_more_trials_than_it_plans() { ok a; ok b; plan 1; }
whose_part_is_killed() { part a bash -c 'echo plan 1; echo ok b; kill -KILL $$'; plan 1; }
whose_part_is_killed_in_the_background() { local pid; bash -c 'echo plan 1; echo ok b; kill -KILL $$' >c & pid=$!; wait $pid; count_part a $? c; plan 1; }
whose_part_has_another_status() { part a bash -c 'echo plan 1; echo ok b; exit 1'; plan 1; }
whose_part_counts_nothing() { part a echo plan 0; plan 1; }
whose_part_says_nothing() { part a true; plan 1; }
whose_part_has_no_plan() { part a echo ok b; plan 1; }
whose_part_has_fewer_trials_than_it_plans() { part a printf '%s\n' "plan 2" "ok b"; plan 1; }
whose_part_has_more_trials_than_it_plans() { part a printf '%s\n' "plan 1" "ok b" "ok c"; plan 1; }
whose_part_says_something_else() { part a printf '%s\n' "plan 1" "ok b" "Killed"; plan 1; }
whose_comparison_is_killed() { tell a "$(kill -KILL $BASHPID)"; plan 1; }
whose_program_says_nothing() { says a true; plan 1; }
whose_program_has_another_status() { says a bash -c 'echo b; exit 1'; plan 1; }
END
}

try_rules() {
    local group
    mkdir -p rules/groups
    cp "$here/hostile.sh" rules
    small_groups >rules/groups/small.sh
    rules/hostile.sh "$tmx" in_order >said 2>&1 || echo "status $?" >>said
    tell "a group in order" "$(tail -n 1 said | grep -vxF "3 ok, 0 failed, 4 skipped")"
    for group in $(sed -nE 's/^(w[a-z_]*|that[a-z_]*)\(\).*/\1/p' rules/groups/small.sh) that_is_not_there; do
        rules/hostile.sh "$tmx" "$group" >said 2>&1
        tell_failed "a group ${group//_/ }" "$(ended $? said)"
    done
    rules/hostile.sh "$tmx" ' ' >said 2>&1
    tell_failed "trials of no group" "$(ended $? said)"
    ANYTHING=0 "$here/hostile.sh" "$tmx" anything >said 2>&1
    tell_failed "the group anything in no time" "$(ended $? said)"
}

# What goes wrong in a copy of ./test, where all that it runs is a stub: the program to put in the place of a stub, from standard input, and words
# for ./test. For the stub of unproved.sh, which makes the program besides, it is ./test quick.
copy_of_test() {
    local name words=("${@:2}")
    rm -rf copy
    for name in copy/trials/names.py copy/trials/promises.py copy/trials/bugs.py; do
        program $name <<<'echo "3 passed, 0 failed"'
    done
    for name in copy/trials/hostile.sh copy/trials/gate.sh; do
        program $name <<<'printf "%s\n" "SKIPPED: a: b" "2 ok, 0 failed, 1 skipped"'
    done
    program copy/rt <<<'printf "%s\n" "rt: tm_low proved" "rt: tm_high is kept: it was proved" "3 passed, 0 failed"'
    printf '%s\n' "# Crates." tm_low: "tm_high: tm_low" >copy/crates.txt
    printf '%s\n' zero live long files >copy/trials/groups.txt
    cp "$here/../test" copy
    [ $# = 0 ] || program "copy/$1"
    if [ "${1:-}" = trials/unproved.sh ]; then
        words=(quick)
        sed -i '1a [ "$1" != program ] || install /dev/null "$2"' "copy/$1"
    fi
    PATH=$folder/copy:$PATH bash copy/test "${words[@]}" >said 2>&1 </dev/null
}

# The name of a wrong end, and the program that has it.
wrong_end() {
    local name
    for name in rt trials/bugs.py trials/hostile.sh trials/unproved.sh; do
        copy_of_test $name <<<"$2"
        tell_failed "./test where ${name#trials/} $1" "$(ended $? said)"
    done
}

try_test() {
    copy_of_test || echo "status $?" >>said
    tell "./test in order" "$(tail -n 1 said | grep -vxF "18 passed, 0 failed, 3 skipped")"
    tell "./test says what is skipped" "$(printf '%s: SKIPPED: a: b\n' live files gate | diff - <(tail -n 5 said | head -n 3))"
    tell "./test says how far it is" "$(grep -cE '^\./test: crate [12] of 2, 0 minutes so far$' said | grep -vx 2)"
    tell "./test says what each part took" "$(grep -cE '^[a-z, ]+: [0-9.]+ minutes, [0-9.]+ processor minutes$' said | grep -vx 5)"
    copy_of_test trials/bugs.py all <<<'[ "$*" = --all ] && echo "3 passed, 0 failed, 0 skipped"' || echo "status $?" >>said
    tell "./test all tries all planted bugs" "$(tail -n 1 said | grep -vxF "18 passed, 0 failed, 3 skipped")"
    copy_of_test trials/unproved.sh <<<'echo "3 passed, 0 failed, 0 skipped"' || echo "status $?" >>said
    tell "./test quick in order" "$(tail -n 2 said | diff - <(printf '%s\n' "nothing was proved: ./test does that" "21 passed, 0 failed, 6 skipped"))"
    copy_of_test trials/unproved.sh <<<'rm "$2"; echo "3 passed, 0 failed, 0 skipped"'
    tell_failed "./test quick where no program is made" "$(ended $? said)"
    copy_of_test rt <<<'printf "%s\n" "rt: must-fail tm_low/late.edit: BAD EDIT: it changes nothing" "3 passed, 0 failed"'
    tell_failed "./test where rt can't try a wrong body" "$(ended $? said)"
    wrong_end "is killed" 'kill -KILL $$'
    wrong_end "is killed behind its last line" 'echo "3 passed, 0 failed"; kill -KILL $$'
    wrong_end "says nothing" 'exit 0'
    wrong_end "counts nothing" 'echo "0 passed, 0 failed"'
    wrong_end "counts a failure, and answers 0" 'echo "3 passed, 1 failed, 0 skipped"'
    wrong_end "has another last line" 'echo "3 passed, 0 failed"; echo Killed'
}

# A small crate in a tree of its own, in which bugs can be planted, and one below it.
make_small_crate() {
    mkdir -p tree/trials tree/crates/{low,small}/src tree/crates/small/bugs
    cp "$here/bugs.py" tree/trials
    printf '%s\n' "low:" "small: low" >tree/crates.txt
    cat >tree/crates/low/src/lib.rt <<'END'
//! A number.
#![tactic(auto)]

ghost use Rattle.std.specs.Prelude.{◌≡◌};

/// The number 2.
pub fn two() -> u8
    ensures { result ≡ 2 }
{
    2
}
END
    cat >tree/crates/small/src/lib.rt <<'END'
//! Functions in which bugs are planted.
#![tactic(auto)]

ghost use Rattle.std.specs.Prelude.{◌≡◌, ◌≤◌, ℕ};

use low::two;
use std::marker::Model;

/// Two numbers, of which contracts see one.
#[derive(Drop)]
pub struct Pair {
    seen: u8,
    other: u8,
}

impl Model for Pair {
    ghost Value = { ℕ };

    ghost view = { λ pair. pair.seen };
}

impl Pair {
    /// The number that contracts see.
    pub fn seen(&self) -> u8
        ensures { result ≡ self.now }
    {
        self.seen
    }

    /// The other number.
    pub fn other(&self) -> u8 {
        self.other
    }
}

/// The number 1.
pub fn one() -> u8
    ensures { result ≡ 1 }
{
    1
}

/// A number that is no smaller.
pub fn no_smaller(octet: u8) -> u8
    ensures { octet ≤ result }
{
    if octet < two() { one() } else { octet }
}
END
}

# A planted bug of this name: an old text and a new one, as often as is wanted.
plant() {
    local name=$1
    shift
    { echo "file: src/lib.rt" && printf 'old: %s\nnew: %s\n' "$@"; } >"tree/crates/small/bugs/$name.edit"
}

# What bugs.py says of the small crate goes to a file, with its status if that isn't 0.
small_bugs() {
    tree/trials/bugs.py "$@" >said 2>&1 </dev/null || echo "status $?" >>said
}

try_bugs() {
    local real kit
    if ! real=$(command -v rt); then
        skip 8 "planted bugs" "there is no rt"
        return
    fi
    make_small_crate
    plant refused "    1" "    2"
    plant same "octet < two()" "octet < one()"
    plant elsewhere "        self.other" "        self.other / 1" "pair.seen" "pair.other"
    plant unread "        self.seen" "        self.unknown"
    plant twice "pub fn" "fn"
    small_bugs
    tell "a planted bug that breaks its own function is refused" "$(grep -c '^ok   small/refused: refused: src/lib.rt:' said | grep -vx 1)"
    tell "a planted bug that no contract sees fails" "$(grep -cx 'FAILED: small/same: NOT REFUSED' said | grep -vx 1)"
    tell "a planted bug that breaks another function alone fails" "$(grep -cx 'FAILED: small/elsewhere: NOT REFUSED' said | grep -vx 1)"
    tell "a planted bug that can't be read fails" "$(grep -c '^FAILED: small/unread: BAD EDIT: src/lib.rt:' said | grep -vx 1)"
    tell "a planted bug that can't be applied fails" "$(grep -c '^FAILED: small/twice: BAD EDIT: ' said | grep -vx 1)"
    tell "planted bugs that fail are counted" "$(tail -n 2 said | diff - <(printf '%s\n' "1 passed, 4 failed, 0 skipped" "status 1"))"
    rm tree/crates/small/bugs/{same,elsewhere,unread,twice}.edit
    small_bugs && small_bugs
    tell "planted bugs that were refused aren't tried again" "$(tail -n 1 said | grep -vxF "0 passed, 0 failed, 1 skipped")"
    echo "// A line more." >>tree/crates/low/src/lib.rt
    kit=$folder/kit
    program kit/bin/rattle <<<'kill -KILL $$'
    program kit/rt <<<"if [ \"\$1\" = doc ]; then echo '$kit/PAGE.md'; else exec '$real' \"\$@\"; fi"
    PATH=$kit:$PATH small_bugs
    tell "planted bugs above a crate that has changed fail without a prover" "$(grep -cE '^FAILED: small/refused: NOT TRIED: |^0 passed, 1 failed, 0 skipped$|^status 1$' said | grep -vx 3)"
}

try_rules
try_test
try_bugs
groups=()
for group in "$@"; do
    if [ "$group" = library ] && ! [ -d "${LIBRARY:-}" ]; then
        skip "$(cases_of library | wc -w)" "library" "LIBRARY names no library"
    else
        groups+=("$group")
    fi
done
try_groups "${groups[@]}"
# 20 rules, 32 ends of ./test, 8 of planted bugs, and the cases of all groups.
planned=$((20 + 32 + 8 + $(for group in "$@"; do cases_of "$group"; done | wc -w)))
tried=$((passed + failed + skipped))
tell "all of it is tried" "$([ $tried = $planned ] || echo "$tried trials are made, and $planned planned")"
echo "$passed ok, $failed failed, $skipped skipped"
[ $failed = 0 ]
