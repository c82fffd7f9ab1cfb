#!/usr/bin/env bash
# Server and client over real sockets, in processes of their own: one client; a client that begins
# before the server; three clients one after another; a port in use; addresses of another form.
# `YDOC=PATH` names a program that is built; else one is proved and built, which takes some minutes.
# With it the script takes some seconds. No wait has no end.
set -u
cd "$(dirname "$0")/../crates/ydoc" || exit 1
work=$(mktemp -d)
trap 'kill $(jobs -p) 2>/dev/null; rm -rf "$work"' EXIT
failed=0

if [ -z "${YDOC:-}" ]; then
  rt run -- merge v1 v1:data/abc.bin >/dev/null 2>"$work/err" || { tail -5 "$work/err"; exit 1; }
  YDOC=$PWD/out/ydoc
fi
cd "$work" || exit 1

# `abc` of client 1, and a unit each of clients 2, 3 and 4, all in the root `t`.
printf '\1\1\1\0\4\1\1t\3abc\0' >1
for client in 2 3 4; do
  printf "\\1\\1\\$client\\0\\4\\1\\1t\\1\\14$client\\0" >"$client"
done

# It runs for 100 seconds at most.
program=(timeout 100 "$YDOC")

# says TEXT: this went wrong
says() {
  echo "checks/sockets.sh: $1"
  failed=1
}

# is_taken PORT: somebody listens there
is_taken() {
  (exec 3<>"/dev/tcp/127.0.0.1/$1") 2>/dev/null
}

# A port at which nobody listens: 47811, or one of the next.
port=47811
while is_taken "$port"; do
  port=$((port + 1))
done
at=127.0.0.1:$port

# listens: waits until the server is there
listens() {
  for _ in $(seq 1 500); do
    is_taken "$port" && return
    sleep 0.01
  done
  says 'no server came'
}

# meets FILE OUTPUT: syncs the file once the server is there, and writes the output
meets() {
  local status
  for _ in $(seq 1 200); do
    "${program[@]}" sync "$at" 2000 "v1:$1" >"$2" 2>"$2.err"
    status=$?
    [ "$status" -eq 6 ] || break
    [ -n "${server:-}" ] && ! kill -0 "$server" 2>/dev/null && break
    sleep 0.02
  done
  case $status in
    0) ;;
    6) missed=1 ;;
    *) says "sync of $1: status $status, $(cat "$2.err")" ;;
  esac
}

# serves TURNS FILE: a server in the background
serves() {
  "${program[@]}" serve "$at" "$1" "v1:$2" >served &
  server=$!
}

# ended NAME: the server ended well
ended() {
  wait "$server"
  local status=$?
  server=
  [ "$status" -eq 0 ] || says "$1: the server's status is $status"
}

# same NAME FILE FILES..: the file is the merge of the others
same() {
  [ "$missed" -eq 0 ] || return
  "${program[@]}" merge v1 "${@:3}" >merged
  cmp -s "$2" merged || says "$1: $2 is not what was to come"
}

one_client() {
  serves "$1" 1
  meets 2 synced
  ended 'one client'
  same 'one client' served v1:1 v1:2
  same 'one client' synced v1:1 v1:2
  printf '\2\1\2\0\4\1\1t\1b\1\1\0\4\1\1t\3abc\0' >expected
  [ "$missed" -ne 0 ] || cmp -s served expected || says 'one client: other bytes than those worked out by hand'
}

# The server comes once the client was refused.
client_first() {
  rm -f synced.err
  (server='' && meets 2 synced; exit "$missed") &
  local client=$!
  until [ -e synced.err ] && grep -qx 'link fault' synced.err; do
    kill -0 "$client" 2>/dev/null || break
    sleep 0.01
  done
  serves "$1" 1
  wait "$client" || missed=1
  ended 'the client first'
  same 'the client first' served v1:1 v1:2
  same 'the client first' synced v1:1 v1:2
}

# Each has what those before it had.
three_clients() {
  serves "$1" 1
  meets 2 first
  meets 3 second
  meets 4 third
  ended 'three clients'
  same 'three clients' first v1:1 v1:2
  same 'three clients' second v1:1 v1:2 v1:3
  same 'three clients' third v1:1 v1:2 v1:3 v1:4
  same 'three clients' served v1:1 v1:2 v1:3 v1:4
}

# tried NAME TURNS: this is as it is to be. On a busy machine a server may use up its turns before a
# client comes; then it is tried again with more.
tried() {
  for turns in "$2" $(($2 * 3)) $(($2 * 9)); do
    missed=0
    "$1" "$turns"
    [ "$missed" -eq 0 ] && return
  done
  says "$1: no client met its server"
}

tried one_client 2000
tried client_first 500
tried three_clients 1500

# refused STATUS LINE WORDS..: the words are refused so, and nothing is written
refused() {
  "${program[@]}" "${@:3}" >out 2>err
  status=$?
  [ "$status" -eq "$1" ] && [ ! -s out ] && [ "$(head -c 20 err)" = "$(head -c 20 <<<"$2")" ] ||
    says "${*:3}: status $status, $(cat err)"
}

# A port in use, nobody at a port, and addresses of another form.
serves 1000 1
listens
refused 6 'link fault' serve "$at" 10 v1:1
ended 'a port in use'
refused 6 'link fault' sync "$at" 10 v1:1
usage='usage: ydoc show|merge'
for address in localhost:47811 127.0.0.1 127.0.0.1:0 127.0.0.1:65536 0.0.0.0:47811 '[::1]:47811' x; do
  refused 2 "$usage" serve "$address" 10 v1:1
  refused 2 "$usage" sync "$address" 10 v1:1
done
[ "$failed" -eq 0 ] && echo 'checks/sockets.sh: ok'
exit "$failed"
