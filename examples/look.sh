#!/usr/bin/env bash
# A first look at the main job, in about a minute and without a proof: a model and its derivation are replayed to an
# image, images are run, models are evaluated, and what is no derivation is refused. Where the program is built already, it
# is used. Else the kit compiles and runs the worked cases of crates/rup_rows/data/look without proving them.
set -euo pipefail
top="$(cd "$(dirname "$0")/.." && pwd)"
rup="$top/crates/rup/out/rup"
rows="$top/crates/rup_rows"
cd "$top/examples"

# what is proved of the program
proved() {
  echo
  echo "What is proved of the program that examples/run.sh builds: every image that 'replay' writes returns from each machine"
  echo "state that is ready for its call, within its bound, with the value of the model, keeps the saved registers, and"
  echo "changes no byte but those of its stack and of the arrays that it returns (README, 'What is proved'; docs/TRUST.md)."
  echo "This look proves nothing itself."
}

# shows the command and what it writes, but for an image
show() {
  echo "\$ rup $*"
  "$rup" "$@" || echo "(status $?)"
}

if "$top/examples/build.sh" look; then
  echo "The program that is built already, on the files of examples/:"
  work="$(mktemp -d)"
  trap 'rm -rf "$work"' EXIT
  cat sum/sum.model
  show compile sum/sum.model
  echo "\$ rup replay sum/sum.model sum/sum.deriv > sum.image"
  "$rup" replay sum/sum.model sum/sum.deriv >"$work/sum.image"
  (cd "$work" && show run sum.image 40 2)
  show eval sum/sum.model 40 2
  cat fnv1a/fnv1a.model
  show compile fnv1a/fnv1a.model
  show code fnv1a/fnv1a.model fnv1a/fnv1a.deriv
  echo "\$ rup replay fnv1a/fnv1a.model fnv1a/fnv1a.deriv > fnv1a.image"
  "$rup" replay fnv1a/fnv1a.model fnv1a/fnv1a.deriv >"$work/fnv1a.image"
  (cd "$work" && show run fnv1a.image hex:61)
  show eval fnv1a/fnv1a.model hex:61
  show eval utf8/utf8.model hex:e282ac00
  show replay literal/literal.model sum/sum.deriv
  proved
  exit
fi

echo "The program isn't built. The kit compiles the worked cases and runs them without a proof; this takes about a minute."
found="$(mktemp)"
trap 'rm -f "$found"' EXIT
if (cd "$rows" && rt try --data look=data/look -- look) >"$found" 2>&1 && grep -q '^[0-9]* cases, 0 different$' "$found"; then
  sed -n '/^look$/,/^[0-9]* cases/p' "$found" | sed 1d
else
  tail -n 3 "$found"
  echo "The run didn't end as it should. These are the stored answers, which the gate compares with the program's:"
  sed -n '/^look$/,/^usage$/p' "$rows/stdout" | sed '1d;$d'
fi
proved
