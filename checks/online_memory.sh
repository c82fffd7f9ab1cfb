#!/usr/bin/env bash
# Each of the first 200 growths of `show`, `merge` and `serve` is refused in turn. The program then
# writes what it writes with memory, or ends as without memory. It takes a C compiler and minutes, so
# the gate does not run it. `YDOC=PATH` names a program that is built; GROWTHS is another number of
# growths.
set -u
checks=$(cd "$(dirname "$0")" && pwd)
cd "$checks/../crates/ydoc" || exit 1
work=$(mktemp -d)
trap 'kill $(jobs -p) 2>/dev/null; rm -rf "$work"' EXIT
failed=0

if [ -z "${YDOC:-}" ]; then
  rt run -- merge v1 v1:data/abc.bin >/dev/null 2>"$work/err" || { tail -5 "$work/err"; exit 1; }
  YDOC=$PWD/out/ydoc
fi
cd "$work" || exit 1
# A port at which nobody listens.
port=47831
while (exec 3<>"/dev/tcp/127.0.0.1/$port") 2>/dev/null; do
  port=$((port + 1))
done
at=127.0.0.1:$port
printf '\1\1\1\0\4\1\1t\3abc\0' >1
printf '\1\1\2\0\4\1\1t\1b\0' >2

cc -shared -fPIC -o refuse.so "$checks/refuse.c" || exit 1

# judged NAME STATUS: it wrote what it writes with memory, or it had none and wrote nothing
judged() {
  if [ "$2" -eq 0 ] && cmp -s out "$1.out"; then
    return
  elif [ "$2" -eq 5 ] && [ ! -s out ]; then
    without=$((without + 1))
  else
    echo "checks/online_memory.sh: $1, growth $growth: status $2"
    failed=1
  fi
}

# served TURNS: one server, and a client that tries as long as the server is there
served() {
  REFUSE=$growth LD_PRELOAD=$work/refuse.so timeout 60 "$YDOC" serve "$at" "$1" v1:1 >out 2>err &
  local server=$!
  while kill -0 "$server" 2>/dev/null; do
    timeout 60 "$YDOC" sync "$at" 2000 v1:2 >/dev/null 2>&1
    [ $? -eq 6 ] || break
  done
  wait "$server"
}

"$YDOC" merge v1 v1:1 v1:2 >merge.out
cp merge.out serve.out
"$YDOC" show --text t v1:1 v1:2 >show.out
without=0
for growth in $(seq 1 "${GROWTHS:-200}"); do
  for name in show merge; do
    words=(show --text t)
    [ "$name" = show ] || words=(merge v1)
    REFUSE=$growth LD_PRELOAD=$work/refuse.so "$YDOC" "${words[@]}" v1:1 v1:2 >out 2>err
    judged "$name" $?
  done
  served 300
  status=$?
  # Its turns may be used up before the client comes.
  for turns in 3000 10000; do
    cmp -s out 1 || break
    served "$turns"
    status=$?
  done
  judged serve "$status"
done
[ "$failed" -eq 0 ] && echo "checks/online_memory.sh: ok, without memory $without times"
exit "$failed"
