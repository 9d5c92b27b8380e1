#!/usr/bin/env bash
# Prints the steps and the bytes of code of four worked images, as `rup replay` makes them now and as they are with a stack slot
# for each variable. The latter stand in bench/images: they were laid out by another program than this one, by the same
# instructions over other places. FNV-1a, upper case and the checksum run over 1,000 bytes, UTF-8 over a text of four.
# A result that differs between the two is refused, and so are more steps or instructions than the last two words of a line allow.
# examples/build.sh builds the program where it has to.
set -euo pipefail
bench="$(cd "$(dirname "$0")" && pwd)"
top="$(cd "$bench/.." && pwd)"
rup="$top/crates/rup/out/rup"
"$top/examples/build.sh"

folder="$(mktemp -d)"
trap 'rm -rf "$folder"' EXIT
head -c 1000 /dev/zero | tr '\0' a >"$folder/text"

# how many steps an image takes on an argument; its results go into a file
steps() {
  { "$rup" run "$1" "$2" >"$folder/$3"; } 2>&1 | sed 's/^run: returned in \([0-9]*\) steps.*/\1/'
}

# the bytes of an image's code
code() {
  "$rup" show "$1" | awk 'NR == 1 { print $8 }'
}

printf '%-9s %12s %12s %12s %12s\n' image 'steps, slots' 'steps' 'code, slots' 'code'
compare() {
  local new="$folder/$1.image" old="$bench/images/$1.image"
  "$rup" replay "$top/examples/$1/$1.model" "$top/examples/$1/$1.deriv" >"$new" 2>"$folder/notes"
  local before now size
  before="$(steps "$old" "$2" before)"
  now="$(steps "$new" "$2" now)"
  size="$(code "$new")"
  printf '%-9s %12d %12d %12d %12d\n' "$1" "$before" "$now" "$(code "$old")" "$size"
  cmp -s "$folder/before" "$folder/now" || { echo "$1: the results differ" >&2; exit 1; }
  [ "$now" -le "$3" ] && [ "$size" -le "$((4 * $4))" ] || { echo "$1: more than $3 steps or $4 instructions" >&2; exit 1; }
}
compare fnv1a "$folder/text" 21100 50
compare upcase "$folder/text" 22100 43
compare checksum "$folder/text" 14600 104
compare utf8 hex:f09f9880 60 105
