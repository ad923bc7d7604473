#!/usr/bin/env bash
# Proves the benchmark, builds it and runs its check, at 5,000 entities and at few, in a room that is kept for the next time. The libraries that it uses are proved
# where they stand, if they are not yet.
# usage: bench/prove.sh [ROOM]      ROOM: a folder, else BENCH_ROOM, else one below TMPDIR
set -euo pipefail
top=$(cd "$(dirname "$0")/.." && pwd)
room=${1:-${BENCH_ROOM:-${TMPDIR:-/tmp}/specs-bench-$(id -u)}}
uses=$(cat "$top/bench/uses")
for name in ${uses#bench:}; do
  # the others are crates of the kit
  [ -d "$top/crates/$name" ] || continue
  (cd "$top/crates/$name" && rt lib >&2)
done
bash "$top/bench/room.sh" "$room"
cd "$room/crates/bench"
mapfile -t words <args
rt run -- --check | diff stdout.5000 -
rt run -- "${words[@]}" | diff stdout -
echo "bench: proved, built as $room/crates/bench/out/bench, and its checksums are those of bench/stdout"
