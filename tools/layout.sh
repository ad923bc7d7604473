#!/usr/bin/env bash
# Whether each crate's sources, definitions and proofs are in the layout of `rt fmt`: `rt ci` asks for it too, but only once it comes to the crate, which may be after half an hour.
# It formats a copy, and names the files that differ. Of the benchmark, of refusals/ and of tools/script/, which `rt ci` does not see, too. Run at the top of the repository.
set -euo pipefail

laid=$(mktemp -d)
trap 'rm -rf "$laid"' EXIT
cp crates.txt "$laid"
for source in crates/*/src; do
  crate=${source%/src}
  mkdir -p "$laid/$crate"
  for part in src specs proofs; do
    [ ! -d "$crate/$part" ] || cp -r "$crate/$part" "$laid/$crate/$part"
  done
  (cd "$laid/$crate" && rt fmt >/dev/null)
  for part in src specs proofs; do
    [ ! -d "$crate/$part" ] || diff -rq "$crate/$part" "$laid/$crate/$part" || {
      echo "$crate: run rt fmt there"
      exit 1
    }
  done
done
bash bench/room.sh "$laid/room"
cp -r "$laid/room/crates/bench" "$laid/bench"
(cd "$laid/room/crates/bench" && rt fmt >/dev/null)
diff -rq "$laid/bench" "$laid/room/crates/bench" || {
  echo "the benchmark: bench/room.sh ROOM, and bench/room.sh --back ROOM, which lays it out"
  exit 1
}
for folder in refusals tools/script; do
  crate=${folder##*/}
  mkdir -p "$laid/crates/$crate/src"
  echo "$crate: $(cat "$folder/uses")" >>"$laid/crates.txt"
  for source in "$folder"/src/*.rt.src; do
    name=${source##*/}
    cp "$source" "$laid/crates/$crate/src/${name%.src}"
  done
  cp -r "$laid/crates/$crate/src" "$laid/as-$crate"
  (cd "$laid/crates/$crate" && rt fmt >/dev/null)
  diff -rq "$laid/as-$crate" "$laid/crates/$crate/src" || {
    echo "$folder: its lines are not as rt fmt lays them out"
    exit 1
  }
done
