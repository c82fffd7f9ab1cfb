#!/usr/bin/env bash
# A session of 10,000 edits by three replicas is held as a plain program holds it, in every kind of
# delivery: arrivals.py says how. `YDOC=PATH` and `YD_ARRIVALS=PATH` name programs that are built; else
# they are proved and built.
set -u
checks=$(cd "$(dirname "$0")" && pwd)

# built CRATE WORD..: the path of the crate's program, which is proved, built, and run with these words
built() {
  cd "$checks/../crates/$1" || return 1
  rt run -- "${@:2}" >/dev/null || return 1
  echo "$PWD/out/$1"
}

ydoc=${YDOC:-$(built ydoc merge v1 v1:data/abc.bin)} || exit 1
yd_arrivals=${YD_ARRIVALS:-$(built yd_arrivals data/log.bin)} || exit 1
exec python3 "$checks/arrivals.py" "$ydoc" "$yd_arrivals"
