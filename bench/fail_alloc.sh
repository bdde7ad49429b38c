#!/bin/sh
# Allocations of each command that are refused, over small inputs each in turn and with all that come after it, and some
# of the many over a larger chip. Each run must end with status 14 and its line, and leave all files as they were, or
# with the full answer. docs/measuring.md says what is tried, and how.
#
#   bench/fail_alloc.sh              all allocations of the small inputs, 200 each of the larger ones
#   bench/fail_alloc.sh --write      the same, and puts the table of what came out into docs/limits.md
#   bench/fail_alloc.sh --every N    each Nth, and some of the larger inputs; that table must tell how many there are
#
# Prints a line for each command, what was otherwise, and a line of counts; the status is 1 where something was. Needs
# cc and python3. AQFP names the program.
set -u
here=$(cd -P "$(dirname "$0")/.." && pwd)
work=$(mktemp -d)
trap 'rm -rf "$work"' EXIT
for tool in cc python3; do
    command -v "$tool" >/dev/null || { echo "fail_alloc: $tool is not there" >&2; exit 70; }
done
AQFP=${AQFP:-$("$here/.ci/program")} || exit
export AQFP

cat >"$work/refuse.c" <<'C'
#define _GNU_SOURCE
#include <errno.h>
#include <fcntl.h>
#include <link.h>
#include <stdio.h>
#include <stdlib.h>
#include <unistd.h>
extern void *__libc_malloc(size_t), *__libc_calloc(size_t, size_t), *__libc_realloc(void *, size_t);
extern void *__libc_memalign(size_t, size_t);
static char *low, *high;
static long refused, seen;
static int and_on;

// The first object is the program.
static int program(struct dl_phdr_info *info, size_t size, void *data) {
    for (int i = 0; i < info->dlpi_phnum; i++) {
        const ElfW(Phdr) *part = &info->dlpi_phdr[i];
        if (part->p_type != PT_LOAD || !(part->p_flags & PF_X)) continue;
        low = (char *)info->dlpi_addr + part->p_vaddr;
        high = low + part->p_memsz;
    }
    return 1;
}
__attribute__((constructor)) static void begin(void) {
    const char *number = getenv("REFUSED");
    dl_iterate_phdr(program, NULL);
    and_on = getenv("REFUSED_ON") != NULL;
    if (number) refused = atol(number);
}
// How many calls there were.
__attribute__((destructor)) static void end(void) {
    char text[32];
    int file = open(getenv("REFUSED_COUNT"), O_CREAT | O_WRONLY | O_TRUNC, 0600);
    if (file < 0) return;
    if (write(file, text, (size_t)sprintf(text, "%ld", seen)) < 0) _exit(70);
    close(file);
}
static int is_refused(void *caller) {
    if ((char *)caller < low || (char *)caller >= high) return 0;
    seen++;
    if (!refused || (and_on ? seen < refused : seen != refused)) return 0;
    errno = ENOMEM;
    return 1;
}
#define REFUSES is_refused(__builtin_return_address(0))
void *malloc(size_t size) { return REFUSES ? NULL : __libc_malloc(size); }
void *calloc(size_t count, size_t size) { return REFUSES ? NULL : __libc_calloc(count, size); }
void *realloc(void *old, size_t size) { return REFUSES ? NULL : __libc_realloc(old, size); }
void *aligned_alloc(size_t align, size_t size) { return REFUSES ? NULL : __libc_memalign(align, size); }
int posix_memalign(void **into, size_t align, size_t size) {
    return REFUSES || !(*into = __libc_memalign(align, size)) ? ENOMEM : 0;
}
C
cc -O2 -shared -fPIC -o "$work/refuse.so" "$work/refuse.c" || exit 70
python3 "$here/bench/fail_alloc.py" "$work/refuse.so" "$@"
