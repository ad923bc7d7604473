#!/usr/bin/env bash
# Runs the benchmark's check with few entities, built without a proof, in a room of its own, and compares the checksum of each workload with bench/stdout.
# It proves nothing of the benchmark; bench/prove.sh does. The last line is '1 passed, 0 failed' or '0 passed, 1 failed'.
set -uo pipefail
here=$(cd "$(dirname "$0")" && pwd)
room=$(mktemp -d)
trap 'rm -rf "$room"' EXIT

refuse() {
  echo "bench/try.sh: $1"
  echo "0 passed, 1 failed"
  exit 1
}

bash "$here/room.sh" "$room" || refuse "there is no room"
cd "$room/crates/bench" || refuse "there is no room"
mapfile -t words <args
[ -s stdout ] || refuse "bench/stdout has no checksum"
python3 "$here/../tools/rt_try.py" --seconds 3600 -- "${words[@]}" >"$room/printed" 2>"$room/said" </dev/null || refuse "the run failed: $(tail -n 20 "$room/said")"
diff stdout "$room/printed" || refuse "it printed otherwise than bench/stdout says"
echo "1 passed, 0 failed"
