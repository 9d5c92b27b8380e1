#!/usr/bin/env bash
# Times how long `rup replay` takes to read a model of 128 KiB, 256 KiB, .. 1 MiB, and a derivation of 2 MiB, 4 MiB, ..
# 16 MiB, and prints a table: seconds of processor time, the least of five runs, their ratio to the step before, and
# megabytes at most, where GNU time is installed. What is read is refused for what comes next: the model's derivation is
# empty, and the derivation is of another model. For twice the bytes reading may take 2.3 times as long; growth from
# less than 0.02 s isn't refused.
set -euo pipefail
top="$(cd "$(dirname "$0")/.." && pwd)"
rup="$top/crates/rup/out/rup"
"$top/examples/build.sh"

folder="$(mktemp -d)"
trap 'rm -rf "$folder"' EXIT
TIMEFORMAT='%U %S'

refuse() {
  echo "$1" >&2
  exit 1
}

# a model of so many KiB: each KiB has a statement whose expression has names of 60 bytes, and a comment behind it
model() {
  awk -v n="$1" 'BEGIN {
    x = sprintf("%060d", 0); gsub(/0/, "x", x)
    printf "(model m (params (%s word)) (require) (do\n", x
    for (k = 1; k < n; k++) {
      e = x
      for (j = 0; j < 12; j++) e = "(add " e " " x ")"
      line = sprintf("(let y%d %s)", k % 100, e)
      while (length(line) < 1023) line = line ";"
      print line
    }
    printf ") (ret y1))\n"
  }' >"$folder/model"
}

# a derivation of so many MiB: 10,000 statements with a certificate each, whose entries fill it up
derivation() {
  awk -v entries="$(($1 * 4 - 2))" 'BEGIN {
    printf "{\"block\":10000,\"deriv\":1,\"model\":\"other\",\"nodes\":["
    for (k = 0; k < 10000; k++) {
      printf "%s[\"s-let\",[0],[[1,[", k ? "," : ""
      for (j = 0; j < entries / 2; j++) printf "%s[2,4294967295,4294967296]", j ? "," : ""
      printf "]]]],[\"e-lit\",[],[[1,["
      for (j = 0; j < entries / 2; j++) printf "%s[2,4294967295,4294967296]", j ? "," : ""
      printf "]]]]"
    }
    print "]}"
  }' >"$folder/deriv"
}

# the seconds until a replay is refused so
seconds() {
  { time "$rup" replay "$1" "$2" >"$folder/out" 2>"$folder/notes" || true; } 2>&1 | awk '{ print $1 + $2 }'
  [ "$(cat "$folder/notes")" = "$3" ] || refuse "the answer was: $(cat "$folder/notes")"
}

# the least of five runs
least() {
  for _ in 1 2 3 4 5; do
    seconds "$@" || return
  done | sort -g | sed -n 1p
}

# the megabytes that it takes at most
memory() {
  [ -x /usr/bin/time ] || { echo -; return; }
  /usr/bin/time -q -f %M -o "$folder/memory" "$rup" replay "$1" "$2" >"$folder/out" 2>"$folder/notes" || true
  awk '{ printf "%.0f", $1 / 1024 }' "$folder/memory"
}

# row NAME FILE BEFORE MODEL DERIVATION REFUSAL: prints its row, and leaves the seconds in `now`
row() {
  local name="$1" file="$2" before="$3" ratio
  shift 3
  now="$(least "$@")" || exit 1
  ratio="$(awk -v a="$before" -v b="$now" 'BEGIN { if (a > 0) printf "%.2f", b / a }')"
  printf '%-10s %9d %9.3f %7s %6s\n' "$name" "$(stat -c %s "$file")" "$now" "$ratio" "$(memory "$@")"
  awk -v a="$before" -v b="$now" 'BEGIN { exit a >= 0.02 && b > 2.3 * a }' ||
    refuse "the $name takes $now seconds, after $before"
}

printf '%-10s %9s %9s %7s %6s\n' file bytes seconds ratio MB
: >"$folder/empty"
before=0
for size in 128 256 512 1024; do
  model "$size"
  row model "$folder/model" "$before" "$folder/model" "$folder/empty" 'refused 6 NotJson'
  before="$now"
done
printf '(model m (params) (require) (do (let x 0)) (ret x))\n' >"$folder/small"
before=0
for size in 2 4 8 16; do
  derivation "$size"
  row derivation "$folder/deriv" "$before" "$folder/small" "$folder/deriv" 'refused 9 NoInstance 0 0'
  before="$now"
done
