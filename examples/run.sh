#!/usr/bin/env bash
# Runs each example on the proved program, which examples/build.sh builds where it has to: a model with a derivation is
# replayed, and its image is run on the arguments of each case; every model is evaluated on them. Every model is compiled too,
# with the lemmas of NAME.lemmas where they stand in its folder: where the search finds a derivation, its image is run on each
# case, and else the line says where it is stuck. A line of `cases` is arguments, ` = `, and the results that are wanted. Where
# the command's text and the image stand in the folder, they are what `code` and `replay` write. A folder may have a script
# `check` of its own, which gets the program's path; where it ends with status 77, its tools aren't there, and it counts as
# passed.
set -euo pipefail
top="$(cd "$(dirname "$0")/.." && pwd)"
rup="$top/crates/rup/out/rup"
"$top/examples/build.sh"

answers=0
wrong=0
work="$(mktemp -d)"
trap 'rm -rf "$work"' EXIT
image="$work/image"

# what was done, what is wanted, what came
compare() {
  answers=$((answers + 1))
  if [ "$2" = "$3" ]; then
    echo "$1 gives $2"
  else
    echo "$1 gives '$3', and '$2' is wanted" >&2
    wrong=$((wrong + 1))
  fi
}

# the lines of results as one line
results() { "$rup" "$@" 2>/dev/null | tr '\n' ' ' | sed 's/ $//'; }

for folder in "$top"/examples/*/; do
  name="$(basename "$folder")"
  model="$folder$name.model"
  derivation="$folder$name.deriv"
  found="$work/found"
  if [ -e "$model" ]; then
    lemmas=()
    if [ -e "$folder$name.lemmas" ]; then lemmas=("$folder$name.lemmas"); fi
    note="$("$rup" compile "$model" ${lemmas[@]+"${lemmas[@]}"} 2>&1 >"$found.deriv")" || true
    echo "$name: compile: ${note#compile: }"
    rm -f "$found.image"
    if [ -s "$found.deriv" ]; then
      note="$("$rup" replay "$model" "$found.deriv" 2>&1 >"$found.image")" || true
      echo "$name: compiled, $note"
    fi
  fi
  if [ -e "$derivation" ]; then
    note="$("$rup" replay "$model" "$derivation" 2>&1 >"$image")" || true
    echo "$name: $note"
    if [ -e "$folder$name.code" ]; then
      compare "$name: code" "$(cat "$folder$name.code")" "$("$rup" code "$model" "$derivation" 2>/dev/null || true)"
    fi
    if [ -e "$folder$name.image" ]; then
      compare "$name: replay, the image's digest" "$(sha256sum <"$folder$name.image")" "$(sha256sum <"$image")"
    fi
  fi
  while IFS= read -r line; do
    read -r -a arguments <<<"${line% = *}"
    wanted="${line##*= }"
    if [ -e "$derivation" ]; then
      compare "$name: run ${arguments[*]}" "$wanted" "$(results run "$image" ${arguments[@]+"${arguments[@]}"} || true)"
    fi
    if [ -e "$found.image" ]; then
      compare "$name: compiled, run ${arguments[*]}" "$wanted" \
        "$(results run "$found.image" ${arguments[@]+"${arguments[@]}"} || true)"
    fi
    compare "$name: eval ${arguments[*]}" "$wanted" "$(results eval "$model" ${arguments[@]+"${arguments[@]}"} || true)"
  done < <(if [ -e "$folder/cases" ]; then cat "$folder/cases"; fi)
  if [ -x "$folder/check" ]; then
    status=0
    "$folder/check" "$rup" || status=$?
    case "$status" in
      0) echo "$name: its check passed" ;;
      77) echo "$name: its check was not made: its tools aren't here" ;;
      *) echo "$name: its check failed with status $status" >&2; wrong=$((wrong + 1)) ;;
    esac
  fi
done
echo "$answers answers, $wrong wrong"
[ "$wrong" = 0 ]
