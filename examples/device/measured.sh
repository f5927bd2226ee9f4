#!/usr/bin/env bash
# Makes FOLDER/measured.o of FOLDER/checker.o, which device/checker.sh made: it prints what each image costs the checker, with
# `run.sh --checker FOLDER/measured.o --steps`.
#
#     examples/device/measured.sh FOLDER
#
# In the environment, RISCV is the compiler, riscv64-unknown-elf-gcc if absent.
set -euo pipefail
here=$(cd "$(dirname "${BASH_SOURCE[0]}")" && pwd)
riscv=${RISCV:-riscv64-unknown-elf-gcc}
cd "$1"
machine=(-march=rv32imc_zicsr -mabi=ilp32 -mcmodel=medany -msmall-data-limit=0)
flags=(-std=c11 -Os -ffreestanding -fno-builtin -Wall -Wextra -Wconversion -Wshadow -Wmissing-prototypes -Werror)
flags+=(-I"$here" -I"$here/../../device" -I"$here/../../crates/sfi_c/include" -I"$here/../../crates/sfi_slots/include")
"$riscv" "${machine[@]}" "${flags[@]}" -c -o measure.o "$here/measure.c"
riscv64-unknown-elf-objcopy --redefine-sym sfi_device_check=checker_check \
    --redefine-sym sfi_device_tell=checker_tell checker.o renamed.o
"$riscv" "${machine[@]}" -nostdlib -r -o measured.o measure.o renamed.o
