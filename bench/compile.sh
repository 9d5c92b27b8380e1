#!/usr/bin/env bash
# Times `rup compile` of models whose derivations have up to 20,000 nodes, and `rup replay` of what it finds, and prints a table
# for each family of models: seconds of processor time, the least of several runs, and their ratio to the step before; and, where
# GNU time is installed, how many times the greater of model and derivation the memory is, less that of `rup` without words. Then
# `rup bench 1 COUNT`, which compiles, replays and runs a generated model.
# For twice the nodes a command may take 2.3 times as long; growth from less than 0.02 s isn't refused. No command may take more
# than two seconds, nor, from 5,000 nodes on, forty times the bytes: below that a megabyte or two that any start takes stands out.
set -euo pipefail
top="$(cd "$(dirname "$0")/.." && pwd)"
rup="$top/crates/rup/out/rup"
"$top/examples/build.sh"

folder="$(mktemp -d)"
trap 'rm -rf "$folder"' EXIT
TIMEFORMAT='%U %S'

refuse() {
  echo "$1" >&2
  exit 1
}

# models of so many nodes

# bindings over fifty names, with nine nodes each besides their own
plain() {
  awk -v n="$(($1 / 10))" 'BEGIN {
    printf "(model m (params (p word) (q word) (r word)) (require (le p 1000)) (do"
    for (k = 0; k < n; k++) printf " (let x%d (xor (add p %d) (mul q (or r 31))))", k % 50, k
    print ") (ret x0))"
  }'
}

# bindings with a sum that is known to fit by what a mask and a shift leave behind: four facts on the way at each, 4,000 after
# 8,000 nodes
facts() {
  awk -v n="$(($1 / 8))" 'BEGIN {
    printf "(model m (params (p word) (q word)) (require) (do"
    for (k = 0; k < n; k++) printf " (let x%d (add (and p %d) (shr q 3)))", k % 50, k + 1
    print ") (ret x0))"
  }'
}

# the seconds that a command takes
seconds() {
  { time "$rup" "$@" >"$folder/out" 2>"$folder/notes"; } 2>&1 | awk '{ print $1 + $2 }'
}

# the least of seven runs
least() {
  for _ in 1 2 3 4 5 6 7; do
    seconds "$@" || return
  done | sort -g | sed -n 1p
}

# the kilobytes that a command takes at most
memory() {
  [ -x /usr/bin/time ] || { echo 0; return; }
  /usr/bin/time -f %M -o "$folder/memory" "$rup" "$@" >"$folder/out" 2>"$folder/notes" || true
  tail -n 1 "$folder/memory"
}
nothing="$(memory)"

# how many times the greater of the files the memory of a command is
times() {
  local most=0 file bytes
  for file in "$folder/model" "$folder/deriv"; do
    bytes="$(wc -c <"$file")"
    if [ "$bytes" -gt "$most" ]; then most="$bytes"; fi
  done
  awk -v all="$(memory "$@")" -v nothing="$nothing" -v most="$most" 'BEGIN { printf "%.1f", (all - nothing) * 1024 / most }'
}

# row NAME SIZE BEFORE MEMORY WORDS..: times a command, prints its row, and leaves the seconds in `now`
row() {
  local name="$1" size="$2" before="$3" memory="$4" ratio
  shift 4
  now="$(least "$@")" || refuse "$name is refused: $(cat "$folder/notes")"
  ratio="$(awk -v a="$before" -v b="$now" 'BEGIN { if (a > 0) printf "%.2f", b / a }')"
  printf '%-16s %8d %9.3f %7s %7s\n' "$name" "$size" "$now" "$ratio" "$memory"
  awk -v a="$before" -v b="$now" -v m="$memory" -v n="$size" \
    'BEGIN { exit (a >= 0.02 && b > 2.3 * a) || b > 2 || (n >= 5000 && m > 40) }' ||
    refuse "$name of $size takes $now seconds, after $before, and $memory times the bytes"
}

printf '%-16s %8s %9s %7s %7s\n' command nodes seconds ratio memory
for family in plain facts; do
  case "$family" in
    plain) sizes="1250 2500 5000 10000 20000" ;;
    facts) sizes="1000 2000 4000 8000" ;;
  esac
  compiled=0
  replayed=0
  for nodes in $sizes; do
    "$family" "$nodes" >"$folder/model"
    "$rup" compile "$folder/model" >"$folder/deriv" 2>"$folder/notes" || refuse "$family: $(cat "$folder/notes")"
    row "compile, $family" "$nodes" "$compiled" "$(times compile "$folder/model")" compile "$folder/model"
    compiled="$now"
    row "replay, $family" "$nodes" "$replayed" "$(times replay "$folder/model" "$folder/deriv")" replay "$folder/model" "$folder/deriv"
    replayed="$now"
  done
done

printf '%-16s %8s %9s %7s\n' command count seconds ratio
benched=0
for count in 120 240 480 960 1920; do
  row bench "$count" "$benched" "" bench 1 "$count"
  benched="$now"
done
