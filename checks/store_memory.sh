#!/usr/bin/env bash
# Each growth of yd_store_cases is refused in turn. The program then makes the change once more and
# prints the same lines, or ends as without memory and prints nothing. Status 6 would say that a
# change without memory has changed something. It takes a C compiler, and a minute.
set -u
cd "$(dirname "$0")/../crates/yd_store_cases" || exit 1
work=$(mktemp -d) && trap 'rm -rf "$work"' EXIT
rt run >"$work/out" 2>"$work/err" || { cat "$work/err"; exit 1; }
program=$PWD/out/yd_store_cases

cat >"$work/refuse.c" <<'C'
#include <stdio.h>
#include <stdlib.h>
extern void *__libc_malloc(size_t);
extern void *__libc_realloc(void *, size_t);
extern void *__libc_memalign(size_t, size_t);
static long growths;
static int refused(void) {
    const char *at = getenv("REFUSE");
    return ++growths == (at ? atol(at) : 0);
}
void *malloc(size_t n) { return refused() ? 0 : __libc_malloc(n); }
void *realloc(void *old, size_t n) { return refused() ? 0 : __libc_realloc(old, n); }
void *aligned_alloc(size_t a, size_t n) { return refused() ? 0 : __libc_memalign(a, n); }
int posix_memalign(void **out, size_t a, size_t n) {
    if (refused()) return 12;
    *out = __libc_memalign(a, n);
    return 0;
}
__attribute__((destructor)) static void tell(void) {
    if (getenv("COUNT")) fprintf(stderr, "%ld\n", growths);
}
C
cc -shared -fPIC -o "$work/refuse.so" "$work/refuse.c" || exit 1
growths=$(COUNT=1 LD_PRELOAD=$work/refuse.so "$program" 2>&1 >/dev/null)

failed=0
again=0
for growth in $(seq 1 "$growths"); do
  REFUSE=$growth LD_PRELOAD=$work/refuse.so "$program" >"$work/out" 2>"$work/err"
  status=$?
  if [ "$status" -eq 0 ] && cmp -s "$work/out" stdout; then
    grep -qx again "$work/err" && again=$((again + 1))
  elif [ "$status" -ne 5 ] || [ -s "$work/out" ]; then
    echo "checks/store_memory.sh: growth $growth: status $status"
    failed=1
  fi
done
[ "$again" -gt 0 ] || { echo 'checks/store_memory.sh: no change was made again'; failed=1; }
[ "$failed" -eq 0 ] && echo "checks/store_memory.sh: ok, $growths growths, $again in a change"
exit "$failed"
