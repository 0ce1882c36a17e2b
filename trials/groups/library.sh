# shellcheck shell=bash disable=SC2154
# Group `library`: libtmx, as C, Rust and Python call it, beside the program. LIBRARY names a folder that has it. Without that it is made of what
# `rt` has proved, and put into the folder that KEEP_LIBRARY names; where there is no `rt` either, the group is skipped.

# Makes libtmx.a and libtmx.so. Behind `rt ci` the crates below stand proved, without a stamp of `rt lib`: then only tm_c itself is checked once
# more, and compiled, with those of the kit that it names.
make_library() {
    local crates kit crate made words=()
    crates=$(realpath "$here/../crates")
    kit=$(dirname "$(rt doc)")
    if [ -e "$crates/tm_tool/out/rlib/stamp" ]; then
        (cd "$crates/tm_c" && rt lib) >made 2>&1 && "$here/../library/join" "$crates/tm_c/out/libtm_c.a" library >>made 2>&1
        return
    fi
    for crate in "$crates"/*; do
        made=$crate/out/rlib/${crate##*/}.rlib
        [ ! -e "$made/format" ] || words+=(--extern "${crate##*/}=$made")
    done
    for crate in $(sed -n 's/^tm_c staticlib: //p' "$here/../crates.txt"); do
        [ -e "$crates/$crate" ] || words+=(--extern "$crate=$kit/rlibs/$crate.rlib")
    done
    (cd "$crates/tm_c" && "$kit/bin/rattle" build --crate-name tm_c src/lib.rt --crate-type staticlib --extern "std=$kit/rlibs/std.rlib" \
        -L "dependency=$kit/rlibs" "${words[@]}" --antt-project "$kit/rattle/logic/antt-project.json" --logic-built "$kit/logic_built" \
        --toolchain "$kit/toolchain" -o "$folder/libtm_c.a") >made 2>&1 && "$here/../library/join" libtm_c.a library >>made 2>&1
}

# How what an example gives of a recording differs from these packets and this report, and its status if that isn't 0.
given_otherwise() {
    "${@:3}" >given 2>report || echo "status $?"
    cmp given "$1" 2>&1
    cmp report "$2" 2>&1
}

# The same of the example recording.
differs() {
    given_otherwise expected/extract expected/report "$@" "$s" "$rec"
}

# The same of a recording at whose end 16,352 groups are open: more than the examples have room for.
ends_otherwise() {
    if [ ! -e open.rec ]; then
        settings open.toml 5 1028 false 'secondary = "never"' 'ocf = "never"'
        python3 - <<'END'
packets = b"".join(application.to_bytes(2, "big") + bytes.fromhex("4000 0000 00") for application in range(2044))
with open("open.rec", "wb") as file:
    for frame in range(8 * 14):
        channel, count = divmod(frame, 14)
        file.write((5 << 36 | channel << 33 | frame << 24 | count << 16).to_bytes(6, "big") + packets[1022 * count :][:1022])
END
        "$tmx" extract --settings open.toml open.rec >open.packets 2>open.report
        [ "$(grep -c '^broken .* reason=end$' open.report)" = 16352 ] || echo "another recording"
    fi
    given_otherwise open.packets open.report "$@" open.toml open.rec
}

# What a program prints that has nothing to say, and its status if that isn't 0.
told() {
    local status=0
    "$@" >told 2>&1 || status=$?
    head -c 1000 told
    [ $status = 0 ] || echo "status $status"
}

# What a compiler says of the header alone, in this language.
header() {
    told "$@" -Wall -Wextra -pedantic -Werror -fsyntax-only -I "$here/../include" "$here/../include/tmx.h"
}

# How the names that nm lists of a library differ from those that the header declares. All of these are functions.
other_names() {
    nm --defined-only "$@" | sed -nE 's/^[0-9a-f]+ //p' | sort | diff declared - 2>&1
}

# What the libraries hand out: what the header declares, and nothing else. A program asks for libtmx.so by a name with its number.
library_names() {
    sed -nE 's/^[a-z].*[ *](tmx_[a-z_]+)\(.*/T \1/p' "$here/../include/tmx.h" | sort >declared
    tell "the archive has the names of the header" "$(other_names -g library/libtmx.a)"
    tell "the shared library has the names of the header" "$(other_names -D library/libtmx.so)"
    tell "libtmx.so is libtmx.so.0" "$(cmp library/libtmx.so library/libtmx.so.0 2>&1
        readelf -d library/libtmx.so | grep -q 'SONAME.*\[libtmx\.so\.0\]' || echo "no libtmx.so.0")"
    tell "the header has the version of tmx.pc" "$(sed -n 's/^#define TMX_VERSION_NUMBER //p' "$here/../include/tmx.h" \
        | diff <(sed -n 's/^Version: //p' "$here/../library/tmx.pc" | awk -F. '{ print 10000 * $1 + 100 * $2 + $3 }') - 2>&1)"
}

# What C and Rust give, linked with the archive and with the shared library.
library_examples() {
    local flags=(-std=c11 -Wall -Wextra -pedantic -Werror -O1 -I "$here/../include")
    tell "the header in C11" "$(header gcc -std=c11 -x c)"
    if command -v g++ >/dev/null; then
        tell "the header in C++17" "$(header g++ -std=c++17 -x c++)"
    else
        skip 1 "the header in C++17" "no g++"
    fi
    tell "the page has the program that is tried" \
        "$(sed -n '/^```c$/,/^```$/p' "$here/../docs/LIBRARY.md" | sed '/^```/d' | diff - <(tail -n +2 "$here/../library/packets.c") 2>&1 | head -n 3)"
    gcc "${flags[@]}" -o packets_c "$here/../library/packets.c" library/libtmx.a 2>made || cat made
    sed -E 's/.* (apid=[0-9]+) .* (octets=[0-9]+)$/\1 \2/' expected/packets >short
    : >nothing
    tell "the program of the page" "$(given_otherwise short nothing ./packets_c "$s" "$rec")"
    gcc "${flags[@]}" -o extract_c "$here/../library/extract.c" library/libtmx.a 2>made || cat made
    tell "the example in C, with the archive" "$(differs ./extract_c)"
    gcc "${flags[@]}" -o extract_so "$here/../library/extract.c" -L library -ltmx 2>made || cat made
    tell "the example in C, with the shared library" "$(LD_LIBRARY_PATH=library differs ./extract_so)"
    tell "the example in C, with many groups that are open at the end" "$(ends_otherwise ./extract_c)"
    gcc "${flags[@]}" -o split_c "$here/../library/split.c" library/libtmx.a 2>made || cat made
    mkdir -p apart
    tell "the example that splits" "$(told ./split_c apart "$s" "$rec"; diff -r apart expected/split 2>&1 | head -n 3)"
    if command -v rustc >/dev/null; then
        rustc --edition 2021 -O -o extract_rs "$here/../library/extract.rs" -L library -l static=tmx 2>made || cat made
        tell "the example in Rust" "$(differs ./extract_rs)"
        tell "the example in Rust, with many groups that are open at the end" "$(ends_otherwise ./extract_rs)"
        rustc --edition 2021 -O -o wrapper_rs "$here/library.rs" -L library -l static=tmx 2>made || cat made
        tell "the wrapper in Rust, in chunks" "$(told ./wrapper_rs "$s" "$rec" expected/packets expected/extract expected/report)"
    else
        skip 3 "the example and the wrapper in Rust" "no rustc"
    fi
}

# Whether a compiler makes an empty program with these flags.
compiles() {
    "$@" -x c -o empty - <<<"int main(void) { return 0; }" 2>/dev/null
}

# Calls over memory that is just as large as it is said to be, by a sanitizer.
library_calls() {
    local flags=(-std=gnu11 -g -O1 -pthread -I "$here/../include") seen=(-fsanitize=address,undefined -fno-sanitize-recover=all) size
    gcc "${flags[@]}" -o calls "$here/library.c" library/libtmx.a 2>made || cat made
    if ! compiles gcc "${seen[@]}"; then
        skip 5 "calls over memory that is just as large as it is said to be" "no AddressSanitizer"
    else
        gcc "${flags[@]}" "${seen[@]}" -o calls_seen "$here/library.c" library/libtmx.a 2>made || cat made
        for size in 1115 100000; do
            tell "rooms of just enough octets, in chunks of $size" "$(differs ./calls_seen chunks $size)"
        done
        tell "versions, texts of statuses, and NULL with a length of 0" "$(told ./calls_seen names 0 "$s" "$rec")"
        tell "jobs that are refused, NULL, without room, and closed" "$(told ./calls_seen jobs 0 "$s" "$rec")"
        tell "hostile calls" "$(told ./calls_seen hostile 0 "$s" "$rec")"
    fi
    printf 'spacecraft = 42\nframe_length = 24\nerror_control = false\nmax_packet = 7\n' >small.toml
    tell "1,000,000 calls leave no memory behind" "$(told ./calls many 500000 small.toml "$rec")"
}

# Jobs and calls of tmx_run in little memory, between pages that nobody may touch, in threads and on small stacks.
library_jobs() {
    local flags=(-std=gnu11 -g -O1 -pthread -I "$here/../include" -Wl,--wrap=malloc,--wrap=realloc,--wrap=free)
    gcc "${flags[@]}" -o jobs "$here/jobs.c" library/libtmx.a 2>made || cat made
    says "each request of a job for memory is refused" ./jobs refused "$s" "$rec"
    says "jobs between pages that nobody may touch" ./jobs guarded "$s" "$rec"
    says "a job that threads hand on, with stacks of 128 KiB" ./jobs handed "$s" "$rec"
    says "jobs in threads" ./jobs threads "$s" "$rec"
    says "each request of tmx_run for memory is refused" ./jobs refused_calls "$s" "$rec"
    says "calls of tmx_run between pages that nobody may touch" ./jobs guarded_calls "$s" "$rec"
    says "calls of tmx_run in threads" ./jobs threads_calls "$s" "$rec"
    if compiles clang -fsanitize=thread; then
        clang "${flags[@]}" -fsanitize=thread -o jobs_seen "$here/jobs.c" library/libtmx.a 2>made || cat made
        says "jobs in threads under ThreadSanitizer" ./jobs_seen threads "$s" "$rec"
        says "calls of tmx_run in threads under ThreadSanitizer" ./jobs_seen threads_calls "$s" "$rec"
    else
        skip 2 "jobs and calls of tmx_run in threads under ThreadSanitizer" "no clang that has it"
    fi
}

# How much stack is taken: by each command of the library with a long definition and a checkpoint, and by the program. Settings as deep as
# they are read need most, and docs/LIBRARY.md says that 3 MiB are enough.
library_stack() {
    local shape used most=0 plain said
    plain=$(./calls stack 3145728 "$s" "$rec") || plain="status $?"
    for shape in tables refused arrays keys; do
        python3 "$here/deep.py" "$shape" >deep.toml || no "deep settings are made: $shape"
        used=$(./calls stack 3145728 deep.toml "$rec") || used="status $?"
        tell "calls with deep settings, $shape, in 3 MiB of stack" "$([[ $used =~ ^[0-9]+$ ]] || echo "$used")"
        [[ $used =~ ^[0-9]+$ ]] && [ "$used" -gt "$most" ] && most=$used
        said=$(ulimit -s 3072 && "$tmx" frames --settings deep.toml "$rec" 2>&1; echo "status $?")
        tell "the program with deep settings, $shape, in 3 MiB of stack" "$([[ $said =~ ^"tmx: settings: "(unknown a|toml)$'\n'"status 2"$ ]] || echo "$said")"
    done
    tell "deep settings take over 2 MiB of stack, and no more than 2.5" "$([ "$most" -gt 2097152 ] && [ "$most" -le 2621440 ] || echo "$most")"
    tell "the example's settings take less than a tenth of 3 MiB" "$([[ $plain =~ ^[0-9]+$ ]] && [ "$plain" -lt 314572 ] || echo "$plain")"
    echo "note calls take $plain octets of stack with the example's settings, and at most $most with deep ones"
}

library() {
    # guards: a-room-in-memory-is-a-drain
    # guards: what-is-read-before-the-recording-is-checked-in-the-programs-order
    # guards: a-call-gives-exactly-what-its-chunk-gives
    # guards: tmx_run-answers-in-numbers-what-the-call-gave
    # guards: a-job-that-is-fed-gives-just-the-events-of-its-octets
    # guards: calls-on-a-job-do-what-the-job-does
    plan 42
    names
    if [ -n "${LIBRARY:-}" ]; then
        cp -r "$LIBRARY" library
    elif ! command -v rt >/dev/null || ! command -v cc >/dev/null; then
        skip 42 "the library" "no rt, or no C compiler"
        return
    elif ! make_library; then
        no "the library is made: $(tail -n 3 made)"
        return
    fi
    [ -z "${KEEP_LIBRARY:-}" ] || cp -r library "$KEEP_LIBRARY"
    if command -v gcc >/dev/null; then
        library_names
        library_examples
        library_calls
        library_jobs
        library_stack
    else
        skip 40 "the library from C and Rust" "no gcc"
    fi
    part library.py python3 "$here/library.py" "$tmx" "$PWD/library/libtmx.so" "${CHUNKED:-40}"
    part test_engine env "TMX=$tmx" "TMX_LIBRARY=$PWD/library/libtmx.so" python3 "$here/../python/tests/run.py" test_engine
}
