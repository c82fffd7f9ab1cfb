#!/usr/bin/env bash
# Large input: 10,000 updates of one unit each, the last one first, are shown within a minute. `YDOC=PATH`
# names a program that is built; else one is proved and built.
set -u
cd "$(dirname "$0")/../crates/ydoc" || exit 1
work=$(mktemp -d) && trap 'rm -rf "$work"' EXIT

if [ -z "${YDOC:-}" ]; then
  rt run -- merge v1 v1:data/abc.bin >/dev/null 2>"$work/err" || { tail -5 "$work/err"; exit 1; }
  YDOC=$PWD/out/ydoc
fi
cd "$work" || exit 1

# "a" in the root `t`, of client 1; then a unit behind the one before it, 9,999 times. The letters
# from a to z go round. Each clock is spelled in two bytes, padded where one would do.
python3 - <<'PY'
def spelled(clock):
    return bytes([clock % 128 + 128, clock // 128])

def letter(clock):
    return bytes([ord("a") + clock % 26])

for clock in range(10_000):
    if clock == 0:
        update = b"\1\1\1\0\4\1\1t\1" + letter(clock) + b"\0"
    else:
        update = b"\1\1\1" + spelled(clock) + b"\x84\1" + spelled(clock - 1) + b"\1" + letter(clock) + b"\0"
    with open(str(clock), "wb") as file:
        file.write(update)
with open("want", "wb") as file:
    file.write(b"".join(map(letter, range(10_000))) + b"\n")
PY
mapfile -t words < <(seq -f 'v1:%.0f' 9999 -1 0)
timeout 60 "$YDOC" show --text t "${words[@]}" >shown || { echo "checks/large.sh: status $?"; exit 1; }
cmp -s shown want || { echo 'checks/large.sh: another text is shown'; exit 1; }
echo 'checks/large.sh: ok'
