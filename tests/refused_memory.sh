#!/usr/bin/env bash
# Refuses each allocation in turn, by a library of a few lines of C that comes before malloc, counting upwards until a run meets no refusal. Of
# hfs_refused_memory, for each line of its stdin by itself: what it then prints must be the line of its stdout. Where the refusal meets
# what is prepared before, the program ends there with status 1, out of memory. And of hfs_tool, of which tests/refused_calls.py says what it
# runs, and what is to be met. Prints how many allocations were refused, or which one was met differently and ends with status 1. If
# there is no C compiler it fails, and prints 'skipped' only if $SKIP_REFUSED_MEMORY says yes.
#
# tests/refused_memory.sh [PROGRAM..], both if none is named
set -euo pipefail
if ! command -v cc > /dev/null; then
    [ "${SKIP_REFUSED_MEMORY:-}" != yes ] || { echo skipped; exit 0; }
    echo 'there is no C compiler: SKIP_REFUSED_MEMORY=yes leaves this out'
    exit 1
fi
. "$(dirname "$0")/common.sh"
programs=("$@")
[ ${#programs[@]} -gt 0 ] || programs=(hfs_refused_memory hfs_tool)

folder=$(mktemp -d)
trap 'rm -rf "$folder"' EXIT

cat > "$folder/refuse.c" <<'C'
#include <errno.h>
#include <stdlib.h>
#include <unistd.h>

extern void *__libc_malloc(size_t);
extern void *__libc_calloc(size_t, size_t);
extern void *__libc_realloc(void *, size_t);
extern void *__libc_memalign(size_t, size_t);

static long wanted, calls;

/* Whether this is the call that is refused; it is told on descriptor 3. */
static int refuses(void) {
    if (wanted == 0) wanted = atol(getenv("REFUSE"));
    if (__atomic_add_fetch(&calls, 1, __ATOMIC_SEQ_CST) != wanted) return 0;
    if (write(3, "refused", 7) != 7) return 0;
    errno = ENOMEM;
    return 1;
}

void *malloc(size_t n) { return refuses() ? NULL : __libc_malloc(n); }
void *calloc(size_t n, size_t m) { return refuses() ? NULL : __libc_calloc(n, m); }
void *realloc(void *p, size_t n) { return refuses() ? NULL : __libc_realloc(p, n); }
void *aligned_alloc(size_t a, size_t n) { return refuses() ? NULL : __libc_memalign(a, n); }

int posix_memalign(void **p, size_t a, size_t n) {
    if (refuses()) return 12;
    *p = __libc_memalign(a, n);
    return *p ? 0 : 12;
}
C
cc -shared -fPIC -O1 -o "$folder/refuse.so" "$folder/refuse.c"

# Whether the program ended as it does where what is laid before was refused memory: by `bail!`, or by the error of std.
is_laying_refused() {
    [ "$1" = 1 ] && [ -z "$2" ] && { [ "$3" = 'Error: out of memory' ] || [ "$3" = 'Error: memory allocation failed' ]; }
}

# Refuses each allocation of program $1 where its input is line $2, and its output line $3.
refuse_each() {
    local n=0 got printed errors
    printf '%s\n' "$2" > "$folder/line"
    while true; do
        n=$((n + 1)) got=0
        : > "$folder/refused"
        REFUSE=$n LD_PRELOAD=$folder/refuse.so "$1" < "$folder/line" > "$folder/printed" 2> "$folder/errors" 3> "$folder/refused" || got=$?
        printed=$(< "$folder/printed") errors=$(< "$folder/errors")
        if is_laying_refused "$got" "$printed" "$errors"; then continue; fi
        if [ "$got" != 0 ] || [ "$printed" != "$3" ]; then
            echo "$3, allocation $n: status $got, $printed$errors"
            exit 1
        fi
        if [[ $errors == *': lagged at '* ]]; then lagged=$((lagged + 1)); fi
        [ -s "$folder/refused" ] || break
        whole=$((whole + 1))
    done
    refused=$((refused + n - 1))
}

refused=0 whole=0 lagged=0
for program in "${programs[@]}"; do
    built=$(program "$program")
    if [ "$program" = hfs_tool ]; then
        python3 tests/refused_calls.py "$built" "$folder/refuse.so"
        continue
    fi
    while IFS= read -r line && IFS= read -r told <&4; do
        refuse_each "$built" "$line" "$told"
    done < "crates/$program/stdin" 4< "crates/$program/stdout"
done
if [[ " ${programs[*]} " == *' hfs_refused_memory '* ]]; then
    if [ "$lagged" = 0 ]; then
        echo 'no publish lagged'
        exit 1
    fi
    echo "$refused allocations refused in turn: $whole met what is tried, which was as said, and $lagged let a publish lag; the others what is laid before"
fi
