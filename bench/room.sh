#!/usr/bin/env bash
# Puts a room for the benchmark together: a copy of the libraries that it uses, with what is built of them, and its own sources under
# their true names as crates/bench. In the repository they end in .src, since `rt ci` proves each .rt and .antt file there.
#
#     bench/room.sh ROOM           makes the room, or brings it up to date; what was proved in it is kept
#     bench/room.sh --back ROOM    lays out the sources that were edited in the room, by rt fmt, and takes them back
set -euo pipefail
top=$(cd "$(dirname "$0")/.." && pwd)

refuse() {
  echo "bench/room.sh: $1" >&2
  exit 1
}

back=
[ "${1:-}" != --back ] || { back=yes && shift; }
[ -n "${1:-}" ] || refuse "it needs the name of a folder"
mkdir -p "$1"
room=$(cd "$1" && pwd)
ours=$room/crates/bench

# The benchmark's files in a folder.
files_in() {
  (cd "$1" && find args stdout stdout.5000 src -type f && { [ ! -d proofs ] || find proofs -type f; }) | LC_ALL=C sort
}

# The sums of the benchmark's files in a folder, by their true names.
sums_of() {
  (cd "$1" && files_in . | xargs sha256sum) | sed 's/\.src$//' | LC_ALL=C sort -k 2
}

# Copies the benchmark's sources into the room, without the ending.
put() {
  local files path
  files=$(files_in "$top/bench")
  rm -rf "$ours/src" "$ours/proofs"
  for path in $files; do
    mkdir -p "$(dirname "$ours/$path")"
    cp "$top/bench/$path" "$ours/${path%.src}"
  done
}

# Copies them back, with it.
take_back() {
  local files path to
  (cd "$ours" && rt fmt >&2)
  files=$(files_in "$ours")
  rm -rf "$top/bench/src" "$top/bench/proofs"
  for path in $files; do
    to=$top/bench/$path
    case $path in *.rt | *.antt) to=$to.src ;; esac
    mkdir -p "$(dirname "$to")"
    cp "$ours/$path" "$to"
  done
}

# Copies a library's texts, and what is built of it where the room has nothing as new: its stamp says of which sources.
library() {
  local from=$top/crates/$1 to=$room/crates/$1
  mkdir -p "$to"
  find "$to" -mindepth 1 -maxdepth 1 ! -name out -exec rm -r {} +
  find "$from" -mindepth 1 -maxdepth 1 ! -name out -exec cp -r -t "$to" {} +
  if [ "$from/out/rlib/stamp" -nt "$to/out/rlib/stamp" ]; then
    rm -rf "$to/out/rlib"
    mkdir -p "$to/out/rlib"
    cp -al "$from/out/rlib/." "$to/out/rlib" 2>/dev/null || cp -a "$from/out/rlib/." "$to/out/rlib"
  fi
}

if [ -n "$back" ]; then
  [ -f "$room/sums" ] || refuse "$room is no room of the benchmark"
  [ "$(sums_of "$top/bench")" = "$(cat "$room/sums")" ] || refuse "bench/ has changed since $room was made: bring the edits into another room"
  take_back
  sums_of "$ours" >"$room/sums"
  exit
fi
if [ -f "$room/sums" ]; then
  [ "$(sums_of "$ours")" = "$(cat "$room/sums")" ] || refuse "the benchmark was edited in $room: take it back by bench/room.sh --back, or remove the room"
elif [ -n "$(ls -A "$room")" ]; then
  refuse "$room has something else in it"
fi
uses=$(cat "$top/bench/uses")
for name in ${uses#bench:}; do
  # the others are crates of the kit
  [ -d "$top/crates/$name" ] || continue
  library "$name"
  grep -E "^$name( [^:]*)?:" "$top/crates.txt"
done >"$room/crates.txt"
echo "$uses" >>"$room/crates.txt"
cp "$top/HANDLES" "$room/HANDLES"
put
sums_of "$ours" >"$room/sums"
