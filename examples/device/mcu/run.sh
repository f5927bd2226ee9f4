#!/usr/bin/env bash
# Runs an image on QEMU's model of a chip without paging: host and sandboxes run in M-mode, and code lies
# in flash. The checker judges it there; without --checker that of ../out/checker.o, and none with
# --unchecked.
#
#     examples/device/mcu/run.sh [OPTIONS] < IMAGE      # hexadecimal text, as `sfi run` reads it
#
#     --chip NAME      one of chips/table; sifive_e, a model of the FE310, if absent
#     --no-pmp         without physical memory protection: guard zones are memory of nobody else
#     --turn TICKS     how long a turn may be, in ticks of the clock; if absent, as chip.h says
#
# In the environment, MAIN names files of C and assembly in the place of main.c, from this folder on.
set -euo pipefail
here=$(cd "$(dirname "${BASH_SOURCE[0]}")" && pwd)
top=$here/../../..
turn_most=4294967295
chip=sifive_e no_pmp=''
source "$here/../running.sh"

own_option() {
    case $1 in
    --chip) chip=$(value "$@") && own_values=1 ;;
    --no-pmp) no_pmp=1 ;;
    *) return 1 ;;
    esac
}

# What comes after the chip's name in chips/table.
words_of_chip() {
    local name words
    while read -r name words; do
        [ "$name" != "$chip" ] || { echo "$words" && return; }
    done <"$here/chips/table"
    fail 3 "there is no chip $chip: chips/table names them"
}

places_of_chip() {
    "$RISCV" -E -P -x c -I "$here/chips/$chip" - <<<'#include "chip.h"
FLASH_ARGUMENTS FLASH_IMAGE FLASH_INPUT TURN_TICKS' | tail -n 1
}

# The code of each sandbox as a programmer of flash would put it there, as far as the image has any, and no
# two at one place: a line `ADDRESS` for each file code0, code1, ...
cut_code() {
    python3 - "$room" <<'END'
import struct
import sys
from pathlib import Path

room = Path(sys.argv[1])
image = (room / "image").read_bytes()
at, places = 8, []
while at + 28 <= len(image) and len(places) < struct.unpack_from("<I", image, 4)[0]:
    code_base, code_size, _, _, _, gates, first = struct.unpack_from("<7I", image, at)
    at += 28 + 8 * gates
    if code_base in places:
        break
    (room / f"code{len(places)}").write_bytes(image[at : at + code_size])
    places.append(code_base)
    print(f"{code_base:#x}")
    at += code_size + first
END
}

read_options "$@"
words=$(words_of_chip)
if [ "$unchecked" = 0 ]; then
    [ -n "$checker" ] || [ -f "$here/../out/checker.o" ] ||
        fail 3 "there is no ../out/checker.o: device/checker.sh makes it"
    checker=${checker:-$here/../out/checker.o}
fi
needs_tools
needs python3 "Debian's package python3"
read_bytes
out=${OUT:-$here/out}/$chip${no_pmp:+-no-pmp}
build_host OUT="$out" CHIP="$chip" NO_PMP="$no_pmp"
places=$(places_of_chip)
read -r at_arguments at_image at_input ticks <<<"$places"
write_arguments "${turn:-$ticks}"

# shellcheck disable=SC2206 # words
options=($words -display none -monitor none -serial stdio)
options+=(-kernel "$out/$([ -z "$checker" ] && echo unchecked || echo checked)")
file arguments "$at_arguments"
file image "$at_image"
file input "$at_input"
number=0
while read -r place; do
    file "code$number" "$place"
    number=$((number + 1))
done < <(cut_code)
[ "$steps" = 0 ] || options+=(-icount shift=0)

# Nothing on the chip ends QEMU: its last line is `status N`.
mkfifo "$room/line"
# shellcheck disable=SC2086 # words
timeout "$seconds" qemu-system-riscv32 "${options[@]}" ${QEMU_OPTIONS:-} </dev/null >"$room/line" \
    2>"$room/log" &
qemu=$!
while IFS= read -r line; do
    case $line in
    "status "*) exit "${line#status }" ;;
    *) echo "$line" ;;
    esac
done <"$room/line"
status=0
wait "$qemu" || status=$?
[ "$status" != 124 ] || ended_late
failed "$status"
