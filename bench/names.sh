#!/usr/bin/env bash
# Times how long `rup eval` takes to refuse models of many names:
#   an `if` that lists 200,000 names, of which none but the last stands again, and the same of a `for`: within a second each
#   250, 500, 1000 and 1990 names in scope, each of which is read 40 times: within a second, and for twice the names
#   2.3 times as long at most. Times below 0.1 s aren't compared, since starting the program counts too.
# Takes another number of listed names, up to 210,000, as its word.
set -euo pipefail
top="$(cd "$(dirname "$0")/.." && pwd)"
rup="$top/crates/rup/out/rup"
"$top/examples/build.sh"

count="${1:-200000}"
folder="$(mktemp -d)"
trap 'rm -rf "$folder"' EXIT

# different names of three bytes, so that a model file has room for them all, and the first of them once more
names="$(awk -v n="$count" 'BEGIN {
  first = "abcdefghijklmnopqrstuvwxyzABCDEFGHIJKLMNOPQRSTUVWXYZ_"; other = first "0123456789"
  for (k = 0; k < n; k++)
    printf "%s%s%s ", substr(first, int(k / 3969) + 1, 1), substr(other, int(k / 63) % 63 + 1, 1), substr(other, k % 63 + 1, 1)
  print "aaa"
}')"
write() {
  printf '(model m (params (a word)) (require) (do %s) (ret a))\n' "$1"
}
write "(if (eq a 0) ($names) (keep) (do) (do))" >"$folder/if.model"
# in a `for` the names have to be in scope, so that the first is refused already
write "(for i 0 a ($names) (keep) (do))" >"$folder/for.model"

# names in scope: a sum of them all in one statement, and behind it a name that is not bound
write_scope() {
  awk -v n="$1" -v times=40 'function name(k) { return sprintf("x%d", k % n) }
  function sum(low, high, middle) {
    if (high - low == 1) { printf "%s", name(low); return }
    middle = int((low + high) / 2)
    printf "(add "; sum(low, middle); printf " "; sum(middle, high); printf ")"
  }
  BEGIN {
    printf "(model m (params (a word)) (require) (do"
    for (k = 0; k < n; k++) printf " (let %s a)", name(k)
    printf " (let y "; sum(0, n * times); printf ") (let y z)) (ret y))\n"
  }'
}

refuse() {
  echo "$1" >&2
  exit 1
}

# the seconds that the refusal of a model takes; the note must be the wanted one
seconds() {
  local start end note
  start="$(date +%s.%N)"
  note="$("$rup" eval "$folder/$1.model" 0 2>&1 || true)"
  end="$(date +%s.%N)"
  [ "$note" = "$2" ] || refuse "$1: the answer was: $note"
  awk -v a="$start" -v b="$end" 'BEGIN { printf "%.3f\n", b - a }'
}

# NUMBER WHAT SECONDS
within_a_second() {
  printf '%6d names %s: refused in %.2f s\n' "$1" "$2" "$3"
  awk -v a="$3" 'BEGIN { exit a >= 1 }' || refuse 'that takes too long'
}

now="$(seconds if 'refused 4 IllTyped statement 0 repeated')"
within_a_second "$count" 'in an if' "$now"
now="$(seconds for 'refused 4 IllTyped statement 0 unknown')"
within_a_second "$count" 'in a for' "$now"

before=0
for size in 250 500 1000 1990; do
  write_scope "$size" >"$folder/scope.model"
  now="$(seconds scope "refused 4 IllTyped statement $((size + 1)) unknown")"
  within_a_second "$size" 'in scope, each read 40 times' "$now"
  awk -v a="$before" -v b="$now" 'BEGIN { exit a >= 0.1 && b > 2.3 * a }' || refuse 'the time grows too fast'
  before="$now"
done
