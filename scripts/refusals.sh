#!/usr/bin/env bash
# Refuses each of the first allocations of the built program in turn, alone and with all that come after it: the program
# must then say that memory was refused, end in 7 and have written a front of the whole output, or write the whole output.
# usage: scripts/refusals.sh [LAST [TRACE]]     by default 500 and examples/first.jsonl
set -u
cd "$(dirname "$0")/.." || exit 1
program=crates/edge/out/edge last=${1:-500} trace=${2:-examples/first.jsonl}
[ -x "$program" ] || { echo "refusals: the program isn't built; left out"; exit 0; }
command -v cc >/dev/null || { echo "refusals: no C compiler; left out"; exit 0; }
work=$(mktemp -d) || exit 1
trap 'rm -rf "$work"' EXIT

# Stands in front of the C library's allocator, and refuses the allocations whose numbers the environment names.
cat >"$work/refuse.c" <<'C'
#include <errno.h>
#include <stdlib.h>
extern void *__libc_malloc(size_t);
extern void *__libc_realloc(void *, size_t);
static unsigned long number(const char *name) {
    const char *text = getenv(name);
    return text ? strtoul(text, NULL, 10) : 0;
}
static int is_refused(void) {
    static unsigned long calls;
    calls++;
    if (calls < number("REFUSE_FROM") || number("REFUSE_TO") < calls) return 0;
    errno = ENOMEM;
    return 1;
}
void *malloc(size_t size) { return is_refused() ? NULL : __libc_malloc(size); }
void *realloc(void *old, size_t size) { return is_refused() ? NULL : __libc_realloc(old, size); }
C
cc -shared -fPIC -O1 -o "$work/refuse.so" "$work/refuse.c" || exit 1

"$program" replay <"$trace" >"$work/whole"
wanted=$?
failed=0 whole=0 refused=0
judge() { # FROM TO
  REFUSE_FROM=$1 REFUSE_TO=$2 LD_PRELOAD="$work/refuse.so" "$program" replay <"$trace" >"$work/out" 2>"$work/said"
  local status=$?
  if [ "$status" = "$wanted" ] && cmp -s "$work/whole" "$work/out"; then
    whole=$((whole + 1))
  elif [ "$status" = 7 ] && grep -qx 'edge: no memory' "$work/said" &&
    head -c "$(wc -c <"$work/out")" "$work/whole" | cmp -s - "$work/out"; then
    refused=$((refused + 1))
  else
    echo "allocations $1 to $2 refused: status $status, which is wrong"
    failed=1
  fi
}
for number in $(seq "$last"); do
  judge "$number" "$number"
  judge "$number" 1000000000
done
echo "refused allocations: $refused runs ended in 7, $whole wrote the whole output"
[ "$refused" -gt 0 ] || { echo "no allocation was refused"; failed=1; }
exit $failed
