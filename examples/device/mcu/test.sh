#!/usr/bin/env bash
# Runs images on QEMU's models of chips without paging, beside `sfi run`, and compares their lines: exit
# codes, traps with their addresses, steps and output. The checker judges each of them on the chip, if
# the library for wasm64 is there (judging.sh).
#
#     examples/device/mcu/test.sh [SFI]         # SFI is the program; ./sfi at the top if absent
set -uo pipefail
here=$(cd "$(dirname "${BASH_SOURCE[0]}")" && pwd)
SFI=$(realpath "${1:-$here/../../../sfi}")
source "$here/../testing.sh"
own=mcu
source "$here/../test_guards.sh"
source "$here/test_premises.sh"
source "$here/test_pads.sh"
by=(--unchecked)
! make_checker || by=(--checker "$room/checker/checker.o")

macro() { # of the chip's header
    riscv64-unknown-elf-gcc -E -P -x c -I "chips/$chip" - <<<"#include \"chip.h\"
$1" | tail -n 1
}

hex() { printf 0x%x $(($1)); } # of a computation

build() { # a source, a format; the image of its sandboxes, which are as many as it has
    local count
    count=$(grep -c '^\.sandbox' "$1")
    # shellcheck disable=SC2046 # words
    in_format "$1" "$2" | "$SFI" build $(at $(seq 0 $((count - 1))))
}

compare() { # what is tried; its input. The image is $room/image.hex
    local wanted
    wanted=$("$SFI" run --rounds 100 --quantum 1000000 --input "$2" <"$room/image.hex")
    report "$chip: $1" "${wanted:-the lines of sfi run}" \
        "$(run --rounds 100 --steps --input "$2" <"$room/image.hex")"
}

# Each posts a word to the other, and exits with the word that it takes.
pair_source() {
    local number
    for ((number = 0; number < 2; number++)); do
        cat <<END
.sandbox 256
.gate exit 0
.gate yield 3
.gate post 4
.gate take 5
        li   a0, $((1 - number))
        li   a1, $((number + 65))
        call post
        call yield
        call take
        call exit
END
    done
}

try_sources() {
    local source format
    for source in hi echo; do
        for format in $formats; do
            build "$shared/../$source.s" "$format" >"$room/image.hex"
            compare "$source, format $format" 48656c6c6f
        done
    done
    pair_source >"$room/pair.s"
    build "$room/pair.s" 1 >"$room/image.hex"
    compare "words between two sandboxes" ''
}

# ---- Loads and stores at the ends of the data, and over them

accesses=()
for operation in lb lhu lw sb sh sw; do
    for place in "0 -2048" "0 -1" "0 0" "0 1" "-1 -3" "-1 -1" "-1 0" "-1 2047"; do
        accesses+=("$operation $place")
    done
done

# As many sandboxes in an image as the chip has room for, each with an access of the list.
try_accesses() { # format, base register; the list
    local from one operation base offset format=$1 register=$2
    shift 2
    local accesses=("$@")
    for ((from = 0; from < ${#accesses[@]}; from += sandboxes_most)); do
        for one in "${accesses[@]:from:sandboxes_most}"; do
            read -r operation base offset <<<"$one"
            printf '.sandbox 256\n li %s, %s\n li a1, 0x44332211\n %s a1, %s(%s)\n ebreak\n' \
                "$register" "$base" "$operation" "$offset" "$register"
        done >"$room/accesses.s"
        build "$room/accesses.s" "$format" >"$room/image.hex"
        compare "${accesses[*]:from:sandboxes_most}, format $format" ''
    done
}

# ---- What the host refuses, what a sandbox can't put, and what guard zones keep from nobody

refused() { # reason; the sandboxes on standard input
    image 1 1 >"$room/image.hex"
    report "$chip: the host refuses: $1" "device: $1"$'\nstatus 2' \
        "$(run <"$room/image.hex"; echo "status $?")"
}

refused_format() {
    printf '.format single\n.sandbox 256\n ebreak\n' | "$SFI" build --at "$(printf %x:%x "$flash_code" "$chip_ram")" >"$room/image.hex"
    report "$chip: the host refuses the fourth format" \
        "device: sandbox 0: its format wants the addresses below its data's size plus 4096 closed, and the last 4096, and here they aren't"$'\nstatus 2' \
        "$(run <"$room/image.hex"; echo "status $?")"
}

try_places() {
    refused "sandbox 0: there is no memory for its data and guard zones" \
        < <(sandbox "$flash_code" "$(hex "host_ram - 512")" 256 "" "" <<<ebreak)
    refused "sandbox 0: its code isn't in the flash" \
        < <(sandbox "$(hex "flash_code - 256")" "$chip_ram" 256 "" "" <<<ebreak)
    # The data of the fourth format begin at a single bit, and not all chips have memory at one.
    [ $((chip_ram & (chip_ram - 1))) -ne 0 ] || refused_format
    yes $'.sandbox 256\n ebreak' | head -n $((2 * sandboxes_most + 2)) >"$room/many.s"
    build "$room/many.s" 1 >"$room/image.hex"
    report "$chip: too many sandboxes" \
        "device: there is room for $((sandboxes_most)) sandboxes"$'\nstatus 2' \
        "$(run <"$room/image.hex"; echo "status $?")"
}

try_output() {
    cat >"$room/output.s" <<END
.sandbox 256
.gate exit 0
.gate put 1
        li   s0, $((output_most / 256))
more:   li   a0, $((chip_ram))
        li   a1, 256
        call put
        addi s0, s0, -1
        bnez s0, more
        li   a0, $((chip_ram))
        li   a1, 1
        call put
        call exit
END
    build "$room/output.s" 1 >"$room/image.hex"
    report "$chip: more output than there is room for" "exit=4294967295 $((2 * output_most)) digits" \
        "$(run <"$room/image.hex" | awk '{ print $2, length($3) - 4, "digits" }')"
}

try_attack() {
    image 1 1 >"$room/image.hex" < <(sandbox "$flash_code" "$chip_ram" 256 "" "" <<END
        li      a0, $((uart))
        li      a1, '!'
        sw      a1, 0(a0)
        ebreak
END
    )
    local place
    place=$("$SFI" check <"$room/image.hex")
    [ "${by[0]}" = --unchecked ] ||
        report "$chip: a store to the UART: checked" "device: $place"$'\nstatus 1' \
            "$(run <"$room/image.hex"; echo "status $?")"
    report "$chip: a store to the UART: unchecked" \
        "!sandbox=0 trap=Break at=$(printf %08x $((16#${place##*at=} + 4))) out=" \
        "$(by=(--unchecked) && run <"$room/image.hex")"
}

# ---- The stack of the checker on the chip's own: half of its room is left

try_stacks() {
    local line stack module room_for
    build "$room/pair.s" 2 >"$room/image.hex"
    line=$(./run.sh "${on[@]}" --checker "$room/checker/measured.o" --steps <"$room/image.hex" | head -n 1)
    room_for=$(riscv64-unknown-elf-nm "out/$chip/checked" |
        awk '/ stack_bottom$/ { from = $1 } / judge_stack_top$/ { to = $1 } END { print "0x" to " - 0x" from }')
    [[ $line =~ " stack="([0-9]+)" module_stack="([0-9]+)$ ]]
    stack=${BASH_REMATCH[1]:-none} module=${BASH_REMATCH[2]:-none}
    report "$chip: the checker's stacks: $line, of $((room_for))" "both at most half" \
        "$([ "$stack" -le $(((room_for) / 2)) ] && [ "$module" -le 2048 ] && echo "both at most half")"
}

# ---- What run.sh refuses

try_script() {
    build "$shared/../hi.s" 1 >"$room/image.hex"
    refused_by_script 3 "run.sh: --rounds takes a number from 1 to 4294967295" --rounds
    refused_by_script 3 "run.sh: --turn takes a number from 1 to 4294967295" --turn x
    refused_by_script 3 "run.sh: there is no option --round; --help names them" --round 3
    refused_by_script 3 "run.sh: there is no chip none: chips/table names them" --chip none
    refused_by_script 3 "run.sh: --checker names no file" --checker none
    QEMU_OPTIONS=-none refused_by_script 4 \
        "run.sh: QEMU failed in status 1: qemu-system-riscv32: -none: invalid option"
    echo zz >>"$room/image.hex"
    refused_by_script 2 "run.sh: the image isn't pairs of hexadecimal digits: $(head -c 80 "$room/image.hex")"
    echo 534649 >"$room/image.hex"
    report "an image of 3 bytes, unchecked" $'device: layout fault 3 Short\nstatus 2' \
        "$(by=(--unchecked) && run <"$room/image.hex"; echo "status $?")"
}

puts_of() { # how many calls; an image of a sandbox that puts no byte so often, by 8 steps each
    local number
    image 1 1 < <({
        echo "put: gate"
        for ((number = 0; number < $1; number++)); do printf ' li a1, 0\n nop\n nop\n jal x1, put\n'; done
        echo ebreak
    } | sandbox "$flash_code" "$chip_ram" 256 1 "")
}

# The instructions of the host for a put of no byte, which README.md has: what another call adds to the steps of a host that
# counts its own with them.
try_price() {
    local count steps=() price
    price=$(sed -n 's/^| a call of a gate and its answer.* | \([0-9]*\),.*/\1/p' "$shared/README.md")
    case $(riscv64-unknown-elf-gcc -dumpversion) in
    12.*) ;;
    *) skip 1 "what a call costs" "the number is that of gcc 12" && return ;;
    esac
    edit_host device/switch.S '/^count_reply:/,$ s/^        sw      t0, FRAME_BEFORE(a0)$/        nop/'
    for count in 1 2; do
        puts_of "$count" >"$room/image.hex"
        steps+=("$(cd "$edited/$own" && by=(--unchecked) && OUT=$room/edited_out run --steps <"$room/image.hex" |
            sed -n 's/.* steps=\([0-9]*\) .*/\1/p')")
    done
    report "$chip: the host's instructions for a put of no byte" "$price" "$((steps[1] - steps[0] - 8))"
}

try_chip() {
    local flash_code chip_ram host_ram sandboxes_most output_most uart
    read -r flash_code chip_ram host_ram sandboxes_most output_most uart < \
        <(macro "FLASH_CODE CHIP_RAM HOST_RAM SANDBOXES_MOST OUTPUT_MOST UART_TRANSMIT")
    local code_at=$flash_code data_at=$chip_ram
    on=(--chip "$chip")
    try_sources
    case $chip in
    virt | spike) # only the serial line is another than sifive_u's
        try_output
        [ "$chip" = spike ] || try_attack
        return
        ;;
    esac
    # Each chip by turns has one of these: a format, the other sandbox for each of them, the other format.
    ! has_turn "$chips" 3 || try_accesses 1 a0 "${accesses[@]}"
    ! has_turn $((chips + 1)) 3 || try_accesses 1 a0 "${accesses[@]:1}" "${accesses[0]}"
    ! has_turn $((chips + 2)) 3 || try_accesses words gp "${accesses[@]}"
    chips=$((chips + 1))
    try_far "$sandboxes_most"
    try_handler
    try_mirrors "$data_at + 0x1000" "$code_at"
    try_open_guards
    try_places
    try_output
    try_attack
    try_premises
    [ "${by[0]}" = --unchecked ] || try_stacks
    case $chip in
    sifive_e)
        try_script
        try_price
        try_debugging --stack 256 --data 512 --at "$(printf %x:%x $((code_at)) $((data_at)))"
        try_functions "$(printf %x $((code_at)))"
        try_without_pmp
        [ "${by[0]}" = --unchecked ] || judge_layouts
        ;;
    sifive_u) try_vendor "$(printf %08x $((flash_code)))" 3 ;; # once: a vendor's own files are the same on all
    esac
}

chips=0 # whose memory has been tried
while read -r chip _; do
    try_chip
done <chips/table

# ---- Plug-ins that come and go

try_slots() {
    report "the host with slots: a checker that isn't there" \
        "there is no checker none: device/checker.sh makes moving.o (CHECKER=FILE names another).  Stop." \
        "$(make -s -C "$shared/slots" CHECKER=none 2>&1 | sed -n 's/^Makefile:[0-9]*: \*\*\* //p')"
    if [ "${by[0]}" = --unchecked ]; then
        skip 1 "the host with slots" "there is no checker to judge its updates"
        return
    fi
    CHECKER=${by[1]%checker.o}moving.o "$shared/../../tools/unit_tests.py" "$shared/slots" >"$room/slots"
    add_counts "$(tail -n 1 "$room/slots")" || failed=$((failed + 1))
    sed '$d; /^\.*$/d' "$room/slots"
}

try_slots

# ---- Other mains: plug-ins as tasks of a kernel, and in U-mode

# The kernel's last line has the slices of its tasks, and how often the one that never yields was preempted. A slice of
# 100 us or more has 100,000 instructions by the clock of --steps: no other task of the host needs as many. A tick of
# opentitan has 100 us, and the first of a slice has begun before it.
kernel() { # the ticks of a slice; the image is $room/image.hex
    MAIN="../kernel/kernel.c ../kernel/entry.S" OUT=$room/kernel run --steps --rounds 20 --turn "$1" <"$room/image.hex" |
        without_steps | awk -F '[=, ]' '/^slices=/ { print ($7 > 0 && $2 == $7) ? "preempted" : $0; next } { print }'
}

try_kernel() {
    local format lines ticks
    while read -r chip ticks; do
        read -r code_at data_at < <(macro "FLASH_CODE CHIP_RAM")
        on=(--chip "$chip")
        for format in $formats; do
            build "$cases/endless.s" "$format" >"$room/image.hex"
            report "$chip: two plug-ins as tasks, format $format" \
                $'sandbox=0 ready out=\nsandbox=1 exit=7 out=\npreempted' "$(kernel "$ticks")"
            build "$room/pair.s" "$format" >"$room/image.hex"
            lines=$("$SFI" run --rounds 20 <"$room/image.hex" | without_steps)
            report "$chip: words between two tasks, format $format" "$lines"$'\npreempted' "$(kernel "$ticks")"
        done
    done <<<$'virt 1000\nopentitan 2'
}

try_kernel
succeeds "the same programs in U-mode" make -s -C "$programs" &&
    succeeds "the same programs in U-mode" ../umode/compare.py "$SFI"
finish
