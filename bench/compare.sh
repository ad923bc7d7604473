#!/usr/bin/env bash
# Compares this repository's benchmark with the same workloads over specs 0.17.0 in Rust, run alternately, and those of an index, which specs
# has not, with an index kept by hand in Rust (bench/twin). Prints for each
# workload the least time of both, their ratio and whether the checksums agree, as a table.
# A workload of this repository that does one of the others' in another way is named by that one's name, a plus sign and the way.
# usage: bench/compare.sh [N=100000] [ITERATIONS=15] [ROUNDS=5] [NAME-PREFIX..]
# Both are kept to one processor, but to two or to all for a prefix of a line j_ that ends in _t2 or _t4, and for births by threads.
# SPECS_BASELINE names the folder with the Rust sources and their assemble.sh; BASELINE_BUILD the folder to build them in;
# BENCH_ROOM the one where bench/prove.sh proves and builds this repository's.
set -euo pipefail
here=$(cd "$(dirname "$0")/.." && pwd)
baseline=$(cd "$here" && cd "${SPECS_BASELINE:-}" 2>/dev/null && pwd) || baseline=
[ -f "$baseline/assemble.sh" ] || {
  echo "bench/compare.sh: it needs the same workloads over specs 0.17.0 in Rust: set SPECS_BASELINE to a folder whose assemble.sh DEST builds DEST/target/release/bench" >&2
  exit 1
}
build=${BASELINE_BUILD:-${TMPDIR:-/tmp}/specs-baseline-$(id -u)}
count=${1:-100000} iterations=${2:-15} rounds=${3:-5}
prefixes=("${@:4}")
[ ${#prefixes[@]} -gt 0 ] || prefixes=(i_ l_atomic_create l_atomic_maintain a_ g_ m_ z_ k_ e_ f_ b_ c_ d_ h_ n_ o_ p_ j_par_heavy_t1 j_par_heavy_t2 j_par_heavy_t4)
rust=$build/target/release/bench
twin=$build/twin
room=${BENCH_ROOM:-${TMPDIR:-/tmp}/specs-bench-$(id -u)}
ours=$room/crates/bench/out/bench
[ -x "$rust" ] || bash "$baseline/assemble.sh" "$build" >/dev/null
mkdir -p "$build"
[ "$twin" -nt "$here/bench/twin/main.rs" ] || rustc --edition 2021 -C opt-level=3 -o "$twin" "$here/bench/twin/main.rs"
bash "$here/bench/prove.sh" "$room" >/dev/null 2>&1 || { echo "bench/compare.sh: the benchmark is not built: bench/prove.sh says why" >&2; exit 1; }
# The command that keeps a program to the processors that a prefix names.
kept_to() {
  case $1 in
    j_*_t4 | l_atomic_create) ;;
    j_*_t2) echo taskset -c 0,1 ;;
    *) echo taskset -c 0 ;;
  esac
}
results=$(mktemp -d)
trap 'rm -r "$results"' EXIT
for ((round = 0; round < rounds; round++)); do
  for prefix in "${prefixes[@]}"; do
    for program in "$rust" "$twin"; do
      $(kept_to "$prefix") "$program" "$count" "$iterations" "$prefix" >>"$results/rust"
    done
    $(kept_to "$prefix") "$ours" "$count" "$iterations" "$prefix" >>"$results/ours"
  done
done
echo "$(date -u +%Y-%m-%d), $(nproc) processors, N = $count, best of $rounds rounds of $iterations runs each, alternating"
echo
echo "| Workload | Rust, ns | Rattle, ns | Ratio | Checksums |"
echo "|---|---|---|---|---|"
awk -F'\t' '
  NR == FNR { if (!($1 in rust) || $2 < rust[$1]) rust[$1] = $2; sum[$1] = $3; next }
  { if (!($1 in ours)) order[++n] = $1; if (!($1 in ours) || $2 < ours[$1]) ours[$1] = $2; mine[$1] = $3 }
  END { for (i = 1; i <= n; i++) { w = order[i]; split(w, parts, "+"); r = parts[1]
      if (r in rust) printf "| %s | %.3f | %.3f | %.2f | %s |\n", w, rust[r], ours[w], ours[w] / rust[r], (mine[w] == sum[r] ? "equal" : "DIFFER") } }
' "$results/rust" "$results/ours"
