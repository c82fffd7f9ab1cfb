#!/usr/bin/env bash
# An update that found no memory is taken in when it is applied once more: where one of the first
# growths is refused, yd_retry prints the same text, or ends as without memory and prints nothing. It
# takes a C compiler. `YD_RETRY=PATH` names a program that is built; GROWTHS is another number of
# growths.
set -u
checks=$(cd "$(dirname "$0")" && pwd)
cd "$checks/../crates/yd_retry" || exit 1
work=$(mktemp -d) && trap 'rm -rf "$work"' EXIT
failed=0
again=0

if [ -z "${YD_RETRY:-}" ]; then
  rt run >/dev/null 2>"$work/err" || { tail -5 "$work/err"; exit 1; }
  YD_RETRY=$PWD/out/yd_retry
fi
cc -shared -fPIC -o "$work/refuse.so" "$checks/refuse.c" || exit 1

for growth in $(seq 1 "${GROWTHS:-300}"); do
  REFUSE=$growth LD_PRELOAD=$work/refuse.so "$YD_RETRY" >"$work/out" 2>"$work/err"
  status=$?
  if [ "$status" -eq 0 ] && cmp -s "$work/out" stdout; then
    grep -qx again "$work/err" && again=$((again + 1))
  elif [ "$status" -ne 5 ] || [ -s "$work/out" ]; then
    echo "checks/memory.sh: growth $growth: status $status"
    failed=1
  fi
done
[ "$again" -gt 0 ] || { echo 'checks/memory.sh: no update was applied again'; failed=1; }
[ "$failed" -eq 0 ] && echo 'checks/memory.sh: ok'
exit "$failed"
