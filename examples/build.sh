#!/usr/bin/env bash
# Builds the program `rup` where it isn't built, or where a source is newer than it: proves every crate below it and then
# the program, and says which crate it is at. From nothing that takes the time of every proof: about an hour of one
# processor. What the kit said stays in examples/build.log. With the word `look` it builds nothing, and its status says
# whether the program is there as the sources are.
set -euo pipefail
top="$(cd "$(dirname "$0")/.." && pwd)"
rup="$top/crates/rup/out/rup"
log="$top/examples/build.log"

is_new() {
  [ -x "$rup" ] && [ -z "$(find "$top/crates.txt" "$top/HANDLES" "$top/crates" -name out -prune -o \
    -type f \( -name '*.rt' -o -name '*.antt' -o -name crates.txt -o -name HANDLES \) -newer "$rup" -print -quit)" ]
}

if is_new; then
  exit 0
elif [ "${1-}" = look ]; then
  exit 1
fi
echo "building rup: proving the crates below it, and then the program"
if (cd "$top/crates/rup" && rt run -- eval data/sum.model 4294967295 1) 2>&1 | tee "$log" |
  sed -un 's/^rt: chose --jobs [0-9]* for /  at /p' && [ -x "$rup" ]; then
  # (a source that the program doesn't stand on may be newer)
  touch "$rup"
else
  tail -n 20 "$log" >&2
  echo "rup was not built: $log has all that the kit said" >&2
  exit 1
fi
