#!/usr/bin/env bash
# Checks an image, and runs it natively on RV32 in QEMU, in one address space and one privilege with
# its host.
#
#     examples/device/run.sh [OPTIONS] < IMAGE      # hexadecimal text, as `sfi run` reads it
#
#     --turn MICROSECONDS   how long a turn may be; 10000 if absent
#     --springboards   gates call the host by a jump, without a trap
set -euo pipefail
here=$(cd "$(dirname "${BASH_SOURCE[0]}")" && pwd)
top=$here/../..
turn_most=429496729 # below 2^32 ticks of 100 ns
source "$here/running.sh"

springboards=''

own_option() {
    case $1 in
    --springboards) springboards=1 ;;
    *) return 1 ;;
    esac
}

read_options "$@"
[ -n "$checker" ] || [ "$unchecked" = 1 ] || needs "$sfi" "the program sfi; SFI=PATH names another"
needs_tools
read_bytes
if [ -z "$checker" ] && [ "$unchecked" = 0 ]; then
    "$sfi" check --raw <"$room/image" >"$room/verdict" ||
        { status=$? && cat "$room/verdict" && exit "$status"; }
fi
out=${OUT:-$here/out}${springboards:+/springboards}
build_host OUT="$out" SPRINGBOARDS="$springboards"
write_arguments $((${turn:-10000} * 10))

# The addresses are those of machine.h.
options=(-M virt -m 256M -bios none -display none -monitor none -serial stdio)
options+=(-kernel "$out/$([ -z "$checker" ] && echo loader || echo checked)")
file arguments 0x87fff000
file image 0x88000000
file input 0x8c000000
[ "$steps" = 0 ] || options+=(-icount shift=0)

# The loader ends QEMU in 0, or in 16 more than its status.
# shellcheck disable=SC2086 # words
timeout "$seconds" qemu-system-riscv32 "${options[@]}" ${QEMU_OPTIONS:-} </dev/null 2>"$room/log" || {
    status=$?
    [ "$status" != 124 ] || ended_late
    ((status >= 17 && status <= 19)) || failed "$status"
    cat "$room/log" >&2
    exit $((status - 16))
}
cat "$room/log" >&2
