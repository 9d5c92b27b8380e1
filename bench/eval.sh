#!/usr/bin/env bash
# Times `rup eval` over 100 KB, 200 KB, .. 1.6 MB, which it reads from a file, and prints a table: seconds of processor time,
# the least of nine runs, and their ratio to the step before.
#   put    a loop that puts each byte of an array
#   names  the same behind 1,000 other names
#   turn   the same with a name of the block's own, and an `if` around the put
#   map    a new byte for each byte
#   fold   FNV-1a
# For twice the bytes an evaluation may take 2.3 times as long, and a second for the loop over 1 MB; a fold over 64 MiB has
# 256 MB of addresses. Growth from less than 0.02 s isn't refused, since starting the program counts too. A step that took
# longer is timed up to three times more, since other work on the machine disturbs it.
set -euo pipefail
top="$(cd "$(dirname "$0")/.." && pwd)"
rup="$top/crates/rup/out/rup"
"$top/examples/build.sh"

folder="$(mktemp -d)"
trap 'rm -rf "$folder"' EXIT
TIMEFORMAT='%U %S'

model() {
  printf '(model m (params (s (bytes n))) (require) (do %s) (ret %s))\n' "$2" "$3" >"$folder/$1.model"
}
loop='(for i 0 n (s) (keep) (do (put s i (byte 7))))'
others="$(awk 'BEGIN { for (k = 0; k < 1000; k++) printf "(let name%d %d) ", k, k }')"
model put "$loop" '(s in s)'
model names "$others $loop" '(s in s)'
model turn '(for i 0 n (s) (keep) (do (let t (get s i))
  (if (eq (word t) 97) (s) (keep) (do (put s i (byte 7))) (do))))' '(s in s)'
model map '(map s (x) (byte (add (word x) 1)))' '(s in s)'
model fold '(let h 2166136261) (fold h s (x) (mul (xor h (word x)) 16777619))' 'h'

refuse() {
  echo "$1" >&2
  exit 1
}

# a file of so many bytes
text() {
  head -c "$1" /dev/zero | tr '\0' a >"$folder/text"
}

# the seconds that an evaluation over the file takes
seconds() {
  { time "$rup" eval "$folder/$1.model" "$folder/text" >"$folder/out" 2>"$folder/notes"; } 2>&1 | awk '{ print $1 + $2 }'
}

# the least of nine runs
least() {
  for _ in 1 2 3 4 5 6 7 8 9; do
    seconds "$1" || return
  done | sort -g | sed -n 1p
}

# one time is at most so many times another
within() {
  awk -v a="$1" -v b="$2" -v most="$3" 'BEGIN { exit b > most * a }'
}

printf '%-7s %10s %9s %7s\n' model bytes seconds ratio
for name in put names turn map fold; do
  before=0
  for size in 100000 200000 400000 800000 1600000; do
    text "$size"
    now="$(least "$name")" || refuse "$name is refused"
    for _ in 1 2 3; do
      within "$before" "$now" 2.3 || [ "$before" = 0 ] || now="$({ echo "$now"; least "$name"; } | sort -g | sed -n 1p)"
    done
    within "$before" "$now" 2.3 || within 0.02 "$before" 1 || refuse "$name over $size bytes takes $now seconds, after $before"
    ratio="$(awk -v a="$before" -v b="$now" 'BEGIN { if (a > 0) printf "%.2f", b / a }')"
    printf '%-7s %10d %9.3f %7s\n' "$name" "$size" "$now" "$ratio"
    before="$now"
  done
done

text 1000000
now="$(least put)" || refuse 'put is refused'
printf '%-7s %10d %9.3f\n' put 1000000 "$now"
within 1 "$now" 1 || refuse 'put takes too long'

text 67108864
ulimit -v 262144
now="$(seconds fold)" || refuse 'the fold over 64 MiB takes too much memory'
printf '%-7s %10d %9.3f\n' fold 67108864 "$now"
