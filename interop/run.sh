#!/usr/bin/env bash
# Compares cases and ydoc with the real Yjs, where that can be had: README.md says how.
set -u
cd "$(dirname "$0")" || exit 1

# Where Debian puts packages for Node; not every Node looks there by itself.
export NODE_PATH=${NODE_PATH:+$NODE_PATH:}/usr/share/nodejs

has_yjs() {
  node -e 'require("yjs")' 2>/dev/null
}

has_protocols() {
  node -e 'require("y-protocols/sync")' 2>/dev/null
}

has_provider() {
  node -e 'require("ws"); require("y-websocket")' 2>/dev/null
}

# install PACKAGE..: gets these packages, and Node where it is missing
install() {
  local missing=("$@")
  command -v node >/dev/null || missing+=(nodejs)
  local get=(apt-get -qq -o Acquire::Retries=1 -o Acquire::http::Timeout=20)
  "${get[@]}" install -y --no-install-recommends "${missing[@]}" ||
    { "${get[@]}" update && "${get[@]}" install -y --no-install-recommends "${missing[@]}"; }
}

# build: proves and builds the program, unless `YDOC=PATH` names one
build() {
  if [ -z "${YDOC:-}" ]; then
    (cd ../crates/ydoc && rt run -- merge v1 v1:data/abc.bin >/dev/null) || exit 1
    export YDOC=$PWD/../crates/ydoc/out/ydoc
  fi
}

if ! has_yjs && ! { install node-yjs >/dev/null 2>&1 && has_yjs; }; then
  echo 'interop: not run, since the packages nodejs and node-yjs cannot be had here'
  exit 0
fi
# `run.sh sockets`: server and client over real sockets, with the provider and the server of y-websocket,
# and hostile peers.
if [ "${1:-}" = sockets ]; then
  has_provider || { install node-ws node-y-websocket >/dev/null 2>&1 && has_provider; } ||
    { echo 'interop: no sockets, since the packages node-ws and node-y-websocket cannot be had here'; exit 0; }
  build
  # Each session is a file, of the server and of the peer.
  ulimit -n 4096 2>/dev/null || ulimit -n "$(ulimit -Hn)"
  timeout 100 node sockets.js || exit 1
  exec timeout 100 node hostile.js
fi
# The worked cases, a server among editors, and then the sessions; with a word only sessions whose names have it.
if [ $# -eq 0 ]; then
  node cases.js || exit 1
  if has_protocols || { install node-y-protocols >/dev/null 2>&1 && has_protocols; }; then
    node serve.js || exit 1
  else
    echo 'interop: no editors, since the package node-y-protocols cannot be had here'
  fi
fi
build
exec node interop.js "$@"
