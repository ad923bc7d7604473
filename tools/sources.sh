# For specs-run and specs-try, which read it: what a program is built of. `top` is the top of the repository, `main` the crate of the program.

# The crates that a crate stands on, and it, lowest first.
crates_below() {
  awk -v main="$main" '
    { sub(/#.*/, "") } !/:/ { next }
    { split($0, half, ":"); split(half[1], words, " "); uses[words[1]] = half[2] }
    function visit(name,   list, count, at) {
      if (name in seen || !(name in uses)) return
      seen[name] = 1
      count = split(uses[name], list, " ")
      for (at = 1; at <= count; at++) visit(list[at])
      print name
    }
    END { visit(main) }' "$top/crates.txt"
}

# The sums of all that the program is built of: the list of crates, and each file of those that it stands on, by its name.
sums() {
  (
    cd "$top" || exit 1
    sha256sum crates.txt
    for crate in $(crates_below); do
      find "crates/$crate" -name out -prune -o -type f \( -name '*.rt' -o -name '*.antt' \) -print0
    done | LC_ALL=C sort -z | xargs -0 sha256sum
  )
}
