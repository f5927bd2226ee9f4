#!/usr/bin/env bash
# Makes FOLDER/checker.o: the proved checker for RV32, which a firmware links, and of the library of slots, if that is named,
# moving.o, which moves sandboxes and decides of slots, too.
#
#     device/checker.sh LIBRARY FOLDER [SLOTS]      # libsfi_c.a, and libsfi_slots.a, for wasm64
#
# The linker of Rattle's toolchain makes a WebAssembly module of the library, wasm-opt takes it from
# 64 to 32 bits, wasm2c turns it into C, and gcc compiles that. In the environment, RATTLE is the
# toolchain's folder, that of `rt doc` if absent; RISCV the compiler, riscv64-unknown-elf-gcc if
# absent; MACHINE its -march, rv32imc if absent; CHECKER_FLAGS are further words for it. Ends in 3 where a tool or the library isn't there.
set -euo pipefail
here=$(cd "$(dirname "${BASH_SOURCE[0]}")" && pwd)
riscv=${RISCV:-riscv64-unknown-elf-gcc}

fail() { # why
    echo "checker.sh: $1" >&2
    exit 3
}

needs() { # a command, and where it comes from
    [ -n "$(type -P "$1")" ] || fail "$1 isn't there ($2)"
}

[ $# = 2 ] || [ $# = 3 ] || fail "takes a library and a folder: checker.sh LIBRARY FOLDER [SLOTS]"
[ -f "$1" ] || fail "there is no library $1"
[ -f "${3:-$1}" ] || fail "there is no library $3"
needs wasm-opt "Debian's package binaryen"
needs wasm2c "Debian's package wabt"
needs "$riscv" "Debian's package gcc-riscv64-unknown-elf"
[ -n "${RATTLE:-}" ] || needs rt "Rattle's toolchain; RATTLE=FOLDER names it"
[ "$(wasm2c --version)" = 1.0.32 ] || fail "wasm2c isn't version 1.0.32, whose names checker.c uses"
[ -f /usr/include/wasm-rt.h ] || fail "/usr/include/wasm-rt.h isn't there (Debian's package wabt)"
"$riscv" --specs=picolibc.specs -E -x c /dev/null -o /dev/null 2>/dev/null ||
    fail "picolibc.specs isn't there (Debian's package picolibc-riscv64-unknown-elf)"
toolchain=${RATTLE:-$(dirname "$(rt doc)")}
library=$(realpath "$1")
slots=${3:+$(realpath "$3")}
mkdir -p "$2"
cd "$2"

# 65536 is the least stack that the linker takes: LINKED_STACK of checker.h.
# wasm2c tests each access against the memory's end alone; reach.h says where the module may go, and where its bytes are, and
# reads and writes them. Its stack pointer, below 2^32, has 32 bits.
make_c() { # a library, the module's name, the call whose accesses aren't calls, and what calls
    "$toolchain/bin/rattle-link" --target wasm64-unknown-unknown --toolchain "$toolchain/toolchain" \
        --stack 65536 -o "${2}64.wasm" "$1" 2>link.log || { cat link.log >&2 && exit 1; }
    wasm-opt --all-features --memory64-lowering "${2}64.wasm" -o "${2}32.wasm"
    wasm2c "${2}32.wasm" -n "$2" -o "${2}_wasm.c"
    grep -q '^  u64 w2c_g0;$' "$2_wasm.h" || fail "$2_wasm.h has no stack pointer as it had"
    sed -i 's/^  u64 w2c_g0;$/  u32 w2c_g0;/' "$2_wasm.h"
    "$here/accesses.py" "$2_wasm.c" "${@:3}"
}

make_c "$library" sfi sfi_c_feed "$here/checker.c"
if [ -n "$slots" ]; then
    make_c "$slots" slots
    ! grep -q '^static const u8 data_segment' slots_wasm.c || fail "the module of slots has constants, as the checker's has"
fi

# What wasm2c wrote wants headers of C: they are picolibc's. Nothing of a C library is linked.
cp /usr/include/wasm-rt.h .
machine=("-march=${MACHINE:-rv32imc}" -mabi=ilp32)
flags=("${machine[@]}" --specs=picolibc.specs -std=c11 -Os -mcmodel=medany -msmall-data-limit=0)
flags+=(-ffreestanding -fno-builtin -fno-jump-tables -ffunction-sections -fdata-sections)
flags+=(-DNDEBUG -DWASM_RT_USE_STACK_DEPTH_COUNT=0)
flags+=(-I. -I"$here/../crates/sfi_c/include" -I"$here/../crates/sfi_slots/include")
# shellcheck disable=SC2206 # words
flags+=(${CHECKER_FLAGS:-})
warned=(-Wall -Wextra -Wconversion -Wshadow -Wmissing-prototypes -Werror -I"$here")
"$riscv" "${flags[@]}" -w -I"$here" -include reach.h -c -o sfi_wasm.o sfi_wasm.c
"$riscv" "${flags[@]}" "${warned[@]}" -c -o judge.o "$here/checker.c"
linked=(-nostdlib -r -Wl,--gc-sections,-esfi_device_check,-usfi_device_tell,-usfi_device_are_apart)
"$riscv" "${machine[@]}" "${linked[@]}" -o checker.o judge.o sfi_wasm.o -lgcc
made=(checker.o)
if [ -n "$slots" ]; then
    "$riscv" "${flags[@]}" -w -I"$here" -include reach.h -c -o slots_wasm.o slots_wasm.c
    "$riscv" "${flags[@]}" "${warned[@]}" -c -o decisions.o "$here/decisions.c"
    decisions=(clear begin accept refuse try place write turn confirm roll_back remove may_enter)
    "$riscv" "${machine[@]}" "${linked[@]}" -Wl,-usfi_device_move "${decisions[@]/#/-Wl,-usfi_device_slots_}" \
        -o moving.o judge.o sfi_wasm.o decisions.o slots_wasm.o -lgcc
    made+=(moving.o)
fi
for object in "${made[@]}"; do # no other name of theirs can meet one of the firmware's
    "$("$riscv" -print-prog-name=objcopy)" --wildcard --keep-global-symbol='sfi_device_*' "$object"
done
