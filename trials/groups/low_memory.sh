# shellcheck shell=bash disable=SC2154
# Group `low_memory`: each request for memory refused, one in each run.

# The calls for memory are those of a library of the trial's own, which refuse one and hand the others on to the C library, glibc.
refusing_library() {
    cat >refused.c <<'END'
#include <errno.h>
#include <fcntl.h>
#include <stddef.h>
#include <stdlib.h>
#include <unistd.h>
void *__libc_malloc(size_t);
void *__libc_calloc(size_t, size_t);
void *__libc_realloc(void *, size_t);
void *__libc_memalign(size_t, size_t);
static int is_refused(void) {
    static long wanted = -1, asked;
    if (wanted < 0) {
        const char *number = getenv("REFUSED");
        wanted = number ? atol(number) : 0;
    }
    if (++asked != wanted) return 0;
    close(open("refused", O_CREAT | O_WRONLY, 0600));
    errno = ENOMEM;
    return 1;
}
void *malloc(size_t octets) { return is_refused() ? NULL : __libc_malloc(octets); }
void *calloc(size_t count, size_t octets) { return is_refused() ? NULL : __libc_calloc(count, octets); }
void *realloc(void *old, size_t octets) { return is_refused() ? NULL : __libc_realloc(old, octets); }
void *aligned_alloc(size_t border, size_t octets) { return is_refused() ? NULL : __libc_memalign(border, octets); }
int posix_memalign(void **found, size_t border, size_t octets) {
    void *given = is_refused() ? NULL : __libc_memalign(border, octets);
    if (!given) return ENOMEM;
    *found = given;
    return 0;
}
END
    cc -O1 -fno-builtin -shared -fPIC -Wl,-z,defs -o refused.so refused.c
}

low_memory() {
    # guards: run-stops-at-one-place-in-both-outputs
    # guards: how-the-place-of-a-name-is-found
    # guards: put-holds-the-octets-or-writes-them
    # guards: no-file-of-the-run-is-overwritten-by-an-applications
    # guards: what-is-checked-and-opened-before-a-run
    # guards: each-fault-traces-to-a-word-or-a-file
    # guards: each-step-has-only-its-own-faults
    local run
    plan 13
    if ! command -v cc >/dev/null || ! getconf GNU_LIBC_VERSION >/dev/null 2>&1; then
        skip 13 "each request for memory refused" "no C compiler, or no glibc"
        return
    fi
    refusing_library 2>made || { no "the library that refuses memory is made: $(head -c 300 made)"; return; }
    names
    for run in frames packets binary_packets extract split waiting fields binary_fields summary help unknown missing clash; do
        says "each request for memory of $run refused" \
            python3 "$here/low_memory.py" "$tmx" "$PWD/refused.so" "$s" "$rec" "$here/fields.csv" $run
    done
}
