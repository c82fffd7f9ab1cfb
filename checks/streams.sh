#!/usr/bin/env bash
# What no contract sees: that the lines go to the system's error stream, and nothing to its output;
# and that the README's examples write what it says. `YDOC=PATH` names a program that is built; else
# one is proved and built.
set -u
cd "$(dirname "$0")/../crates/ydoc" || exit 1
work=$(mktemp -d) && trap 'rm -rf "$work"' EXIT
failed=0

if [ -z "${YDOC:-}" ]; then
  rt run -- merge v1 v1:data/abc.bin >/dev/null 2>"$work/err" || { tail -5 "$work/err"; exit 1; }
  YDOC=$PWD/out/ydoc
fi
cd data || exit 1

# The line of a file that is not there comes on the error stream, and nothing on the output.
"$YDOC" show --text t v1:no-such-file >"$work/out" 2>"$work/err"
status=$?
if [ "$status" -ne 3 ] || [ -s "$work/out" ] ||
  ! grep -qxF 'read fault no-such-file' "$work/err"; then
  echo "checks/streams.sh: a file that is not there: status $status"
  failed=1
fi

# writes NAME STATUS WORD..: with these words it ends so, and writes what comes on standard input
writes() {
  "$YDOC" "${@:3}" >"$work/out" 2>"$work/err"
  status=$?
  if [ "$status" -ne "$2" ] || ! cmp -s - "$work/out"; then
    echo "checks/streams.sh: $1: status $status, or another output than is wanted"
    failed=1
  fi
}

writes usage 2 show --text t </dev/null
printf 'abcd\n' | writes shown 0 show --text t v2:d.v2.bin v1:abc.bin
printf '\0\0\1\1\0\0\1\4\7\4tabc\1\3\1\1\0\0\1\1\0\0' | writes converted 0 convert v2 v1:abc.bin
[ "$failed" -eq 0 ] && echo 'checks/streams.sh: ok'
exit "$failed"
