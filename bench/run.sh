#!/usr/bin/env bash
# Prints how many steps `rup run` takes in a second of processor time on this machine, for the images of loops that
# stand here as words in hexadecimal:
#   registers.hex   an addition and a jump back to it, up to its bound of 100,000,000 steps
#   fnv.hex         FNV-1a as it is emitted with a stack slot for each variable, over 4,000,000 bytes: 47 steps a byte,
#                   among them 36 loads and stores on the stack, one `lbu`, `xor` and `mul`
#   upcase.hex      each of 16,000,000 bytes replaced by its entry in a table: 18 steps a byte, among them 10 loads and
#                   stores on the stack, a load and a store in the array, and a load in the table
# Where qemu-riscv32 is installed, it runs the images that return, and its time stands beside.
# examples/build.sh builds the program where it has to.
set -euo pipefail
bench="$(cd "$(dirname "$0")" && pwd)"
top="$(cd "$bench/.." && pwd)"
rup="$top/crates/rup/out/rup"
"$top/examples/build.sh"

folder="$(mktemp -d)"
trap 'rm -rf "$folder"' EXIT

# the bytes of a file of words, the lowest byte of each first
image() {
  local word
  for word in $(cat "$1"); do
    printf "\\x${word:6:2}\\x${word:4:2}\\x${word:2:2}\\x${word:0:2}"
  done
}

# numbers as four bytes each, the lowest first
words() {
  local n
  for n in "$@"; do
    printf "\\x$(printf %02x $((n & 255)))\\x$(printf %02x $((n >> 8 & 255)))\\x$(printf %02x $((n >> 16 & 255)))"
    printf "\\x$(printf %02x $((n >> 24 & 255)))"
  done
}

# the instructions `lui` and `addi` that set a register to a number
set_register() {
  words $(((($2 + 0x800) & 0xfffff000) | $1 << 7 | 0x37)) $((($2 & 0xfff) << 20 | $1 << 15 | $1 << 7 | 0x13))
}

# the field of an image at an offset
field() {
  od -An -tu4 -j"$2" -N4 "$1"
}

# A program for qemu-riscv32 that calls an image on one array: a segment at 0x10000 with the image, the array and the stack,
# as `rup run` places them, and behind them code that sets sp, a0, a1 and t0, calls and exits with 0.
program() {
  local image="$1" array="$2" start length top size
  start=$(((0x10000 + $(stat -c %s "$image") + 15) / 16 * 16))
  length="$(stat -c %s "$array")"
  top=$(((start + length + 15) / 16 * 16 + $(field "$image" 28)))
  size=$((top + 48 - 0x10000))
  words 0x464c457f 0x10101 0 0 0xf30002 1 "$top" 52 0 0 0x200034 1 0
  words 1 4096 0x10000 0x10000 "$size" "$size" 7 4096
  head -c $((4096 - 84)) /dev/zero
  cat "$image"
  head -c $((start - 0x10000 - $(stat -c %s "$image"))) /dev/zero
  cat "$array"
  head -c $((top - start - length)) /dev/zero
  set_register 2 "$top"
  set_register 10 "$start"
  set_register 11 "$length"
  set_register 5 $((0x10000 + $(field "$image" 24)))
  words 0x000280e7 0x00000513 0x05d00893 0x00000073
}

# the processor time of a command in seconds
seconds() {
  TIMEFORMAT=%U
  { time "$@" >"$folder/out" 2>"$folder/note" || true; } 2>&1
}

# prints how long a run took, and its speed
report() {
  awk -v who="$1" -v name="$2" -v n="$3" -v t="$4" \
    'BEGIN { printf "%-12s %-10s %d steps in %.2f s of processor time: %.0f million steps a second\n", who, name, n, t, n / t / 1e6 }'
}

# runs an image with these arguments and prints its speed; the note must be the wanted one
measure() {
  local name="$1" steps="$2" wanted="$3" user note
  shift 3
  image "$bench/$name.hex" >"$folder/$name"
  user="$(seconds "$rup" run "$folder/$name" "$@")"
  note="$(cat "$folder/note")"
  [ "$note" = "$wanted" ] || { echo "the run of $name ended with: $note" >&2; exit 1; }
  report 'rup run' "$name" "$steps" "$user"
  if [ -n "$qemu" ] && [ $# = 1 ]; then
    program "$folder/$name" "$1" >"$folder/program"
    chmod +x "$folder/program"
    "$qemu" "$folder/program" || { echo "qemu-riscv32 on $name ended with $?" >&2; exit 1; }
    report qemu-riscv32 "$name" "$steps" "$(seconds "$qemu" "$folder/program")"
  fi
}

qemu="$(command -v qemu-riscv32 || command -v qemu-riscv32-static || true)"
measure registers 100000000 "out of steps 100000000"
head -c 4000000 /dev/zero | tr '\0' a >"$folder/text"
measure fnv 188000022 "run: returned in 188000022 steps, bound 188000100" "$folder/text"
head -c 16000000 /dev/zero | tr '\0' a >"$folder/text"
measure upcase 288000009 "run: returned in 288000009 steps, bound 288000100" "$folder/text"
echo "load of this machine: $(cut -d' ' -f1-3 /proc/loadavg)"
