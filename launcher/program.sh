# What the launchers share: where the proved program is, whether it is as new as its sources, and which crates it needs.
# shellcheck shell=bash disable=SC2154,SC2034
# Sourced with `top` set to the repository's folder.

program=$top/out/otsoft
built_by_gate=$top/crates/otsoft_main/out/otsoft_main
time_to_prove='less than an hour on four free processors'

fail() {
  echo "otsoft: $1" >&2
  exit 70
}

# Each crate that the program stands on, with those of the repository that it needs itself, lowest first.
crates_needed() {
  awk -F: '
    !/^#/ && NF { split($1, word, " "); name[++count] = word[1]; needs[word[1]] = $2; own[word[1]] = 1 }
    function visit(crate, below, n, j, line) {
      if (crate in seen) return
      seen[crate] = 1
      line = crate
      n = split(needs[crate], below, " ")
      for (j = 1; j <= n; j++) if (below[j] in own) { visit(below[j]); line = line " " below[j] }
      print line
    }
    END { visit("otsoft_main") }' "$top/crates.txt"
}

# is_current FILE: whether this is a program that is newer than all sources that it is made from
is_current() {
  [ -x "$1" ] || return 1
  local folders newer
  folders=$(crates_needed | sed "s|^\([^ ]*\).*|crates/\1|")
  # shellcheck disable=SC2086 # names of crates hold no space
  newer=$(cd "$top" && find crates.txt $folders -name out -prune -o -name must-fail -prune -o -type f -newer "$1" -print -quit)
  [ -z "$newer" ]
}

# put_program FILE TIME: a copy takes the program's place only when it is whole, and is as old as TIME.
put_program() {
  mkdir -p "$top/out" && cp "$1" "$top/out/new.$$" && touch -r "$2" "$top/out/new.$$" && mv -f "$top/out/new.$$" "$program"
}

# Whether the proved program is as new as its sources, also where the gate has left one.
is_proved() {
  is_current "$program" || { is_current "$built_by_gate" && put_program "$built_by_gate" "$built_by_gate" 2>/dev/null; }
}
