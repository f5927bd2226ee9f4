#!/usr/bin/env bash
# Runs images natively on RV32 in QEMU, beside `sfi run`, and compares their lines: exit codes,
# traps with their addresses, steps and output. Then it shows what the checker keeps from the host:
# images that it refuses, and what they do all the same; and what the commands of docs/DEVICE.md
# print. test_checker.sh has the checker judge images on the device.
#
#     examples/device/test.sh [SFI]             # SFI is the program; ./sfi at the top if absent
#     ALL=1 examples/device/test.sh [SFI]       # every input, more sizes of data, turns of each length and
#                                               # by the real clock, and a checker without room for its stack
#
# What is compared depends on no clock but that of QEMU which counts instructions (--steps), or on none: a machine that is
# busy with other things gives the same lines.
set -uo pipefail
here=$(cd "$(dirname "${BASH_SOURCE[0]}")" && pwd)
SFI=$(realpath "${1:-$here/../../sfi}")
chip=virt
all=${ALL:-}
seconds=60
[ -z "$all" ] || seconds=600 # for the longest output
source "$here/testing.sh"
own=.
source "$here/test_guards.sh"
make -s || { report "make" "the loader" "none" && finish; }

# ---- Lines beside those of `sfi run`

build() { # a source, a format; the image on one line
    in_format "$1" "$2" | "$SFI" build
}

# Turns of 10 ms are longer than most runs, those of 10 us some 10000 instructions: the clock of
# --steps counts these. Where sandboxes wait for each other, their steps depend on how long turns
# are, and only their states and output are compared. Each image has one of the lengths, by turns, where `each` doesn't say all.
turns=(10000 10)
each=$all
compared=0
compare() { # what is tried, its image, input, `steps` or `no steps`
    local wanted turn found number=$((compared++))
    wanted=$("$SFI" run --rounds 10000 --quantum 1000000 --input "$3" <"$2")
    for turn in "${turns[@]}"; do
        number=$((number + 1))
        [ -n "$each" ] || has_turn "$number" ${#turns[@]} || continue
        found=$(run --steps --seconds "$seconds" --turn "$turn" --input "$3" <"$2")
        if [ "$4" = steps ]; then
            report "$1, turns of $turn us" "$wanted" "$found"
        else
            report "$1, turns of $turn us" \
                "$(without_steps <<<"$wanted")" "$(without_steps <<<"$found")"
        fi
    done
    [ -n "$all" ] || return
    found=$(run --rounds 4294967295 --seconds "$seconds" --turn 10 --input "$3" <"$2")
    report "$1, turns of 10 us by the real clock" "$(without_steps <<<"$wanted")" "$found"
}

compare_examples() { # format
    local source name input
    for source in ../*.s cases/services.s ${all:+cases/output.s}; do
        name=$(basename "$source" .s)
        build "$source" "$1" >"$room/image.hex"
        for input in 48656c6c6f ${all:+'' $(digits_of ../c/inputs/prose)}; do
            case $name in
            primes) compare "$name, format $1" "$room/image.hex" "$input" "no steps" ;;
            *) compare "$name, format $1" "$room/image.hex" "$input" steps ;;
            esac
        done
    done
}

# The last input of each program, or all of them. In bundles a third of the programs are tried.
usual=words # which lie at other addresses than the host
compare_programs() { # format; in words, too, one of how many has its turn
    local program input last='' number=0
    while read -r program input _; do
        if [ "$program" = "$last" ]; then
            [ -n "$all" ] || continue
        else
            number=$((number + 1))
        fi
        last=$program
        [ -n "$all" ] || { is_due "$1" "$number" 3 && { [ "$1" != words ] || has_turn "$number" "${2:-1}"; }; } || continue
        c_image "$program" "$1" "$room/image.hex" || report "$program, format $1" image none
        compare "$program on $input, format $1" "$room/image.hex" \
            "$(../c/inputs.py "$input" | digits_of)" steps
    done < <(tac ../c/expected.txt)
}

for format in $formats; do
    compare_examples "$format"
    compare_programs "$format"
done
compare "the smallest image" ../smallest.hex '' steps

build cases/endless.s 2 >"$room/image.hex"
report "a turn that never ends by itself" $'sandbox=0 ready out=\nsandbox=1 exit=7 out=' \
    "$(run --steps --rounds 20 --turn 1000 <"$room/image.hex" | without_steps)"

# Each of 16 sandboxes posts to the next, and puts its sender's word.
for ((number = 0; number < 16; number++)); do
    cat <<END
.sandbox 4096
.gate exit 0
.gate put 1
.gate yield 3
.gate post 4
.gate take 5
        li   a0, $(((number + 1) % 16))
        li   a1, $((number + 65))
        call post
        call yield
        call take
        mv   s0, a1
        la   t0, text
        sw   a0, 0(t0)
        mv   a0, t0
        li   a1, 1
        call put
        mv   a0, s0
        call exit
.data
text:   .word 0
END
done >"$room/sixteen.s"
build "$room/sixteen.s" 2 >"$room/sixteen.hex"
compare "sixteen sandboxes" "$room/sixteen.hex" '' steps

# ---- Loads and stores at the ends of the data, and over them

# An access is `operation offset`, from the data's first byte (base 0) or last byte (base -1).
accesses=()
for operation in lb lbu lh lhu lw sb sh sw; do
    for offset in -2048 -4 -3 -2 -1 0 1; do accesses+=("$operation 0 $offset"); done
    for offset in -3 -2 -1 0 1 4 2047; do accesses+=("$operation -1 $offset"); done
done

access_source() { # data size, format, base register; the accesses, a sandbox for each
    local size=$1 format=$2 register=$3 one operation base offset
    shift 3
    printf '.format %s\n' "$format"
    for one; do
        read -r operation base offset <<<"$one"
        printf '.sandbox %s\n.option rvc\n' "$size"
        printf ' li %s, %s\n li a1, 0x44332211\n' "$register" "$base"
        printf ' %s a1, %s(%s)\n ebreak\n' "$operation" "$offset" "$register"
    done
}

# What a right machine says of an access: where it traps it names the first of its addresses, and
# writes nothing.
access_meaning() { # number of the sandbox, data size, the access: `trap written`, Break for no trap
    local number=$1 data_size=$2 operation=$3 base=$4 offset=$5 size first written='' byte cause
    case $operation in *b | *bu) size=1 ;; *h | *hu) size=2 ;; *) size=4 ;; esac
    first=$((base == 0 ? offset : data_size - 1 + offset))
    local address=$(((number + 1) * 0x01000000 + 0x00800000 + first))
    case $operation in l*) cause=Load ;; *) cause=Store ;; esac
    if [ "$first" -lt 0 ] || [ $((first + size)) -gt "$data_size" ]; then
        printf '%s at=%08x\n' "$cause" "$address"
        return
    fi
    for ((byte = 0; byte < size; byte++)); do
        [ "$cause" = Store ] || continue
        written+=$(printf ',%08x:%s' $((address + byte)) $((11 * (byte + 1))))
    done
    echo "Break ${written#,}"
}

# `Break ADDRESS:BYTE,..`, `Load at=ADDRESS` or `Store at=ADDRESS` of a line with --written.
found_meaning() {
    sed 's/.* trap=Break at=[0-9a-f]*/Break/; s/.* trap=//' |
        sed 's/ steps=[0-9]*//; s/ out=//; s/ written=/ /; s/^Break$/Break /'
}

compare_accesses() { # data size, format, base register
    local size=$1 format=$2 register=$3 from number found wanted
    for ((from = 0; from < ${#accesses[@]}; from += 14)); do
        access_source "$size" "$format" "$register" "${accesses[@]:from:14}" |
            "$SFI" build >"$room/image.hex"
        found=$(run --steps --written <"$room/image.hex")
        wanted=$("$SFI" run --rounds 2 <"$room/image.hex")
        report "accesses from $from on, data of $size bytes, on $register, beside sfi run" \
            "$wanted" "$(sed 's/ written=.*//' <<<"$found")"
        number=0
        while read -r line; do
            wanted=$(access_meaning "$number" "$size" ${accesses[from + number]})
            report "${accesses[from + number]}, data of $size bytes, on $register" \
                "$wanted" "$(found_meaning <<<"$line")"
            number=$((number + 1))
        done <<<"$found"
    done
}

# Each size in one of the formats, by turns; sp is without masks, and in 16 bits where the offset allows that.
number=0
for size in 256 2048 4096 ${all:+512 1024 65536}; do
    for way in "1 a0" "2 sp" "words gp"; do
        [ -z "$all" ] && ! has_turn "$number" 3 || compare_accesses "$size" $way
        number=$((number + 1))
    done
    number=$((number + 1))
done

code_at=0x01000000 data_at=0x01800000
try_far 14
try_handler

# ---- Images that no build makes: other addresses, and 16-bit accesses on a masked register

image 1 2 >"$room/image.hex" < <(
    sandbox 0xfffff000 0x00001000 4096 "0" 416263 <<'END'
        gate
        .option rvc
        masked  s0, x0                  # the data's first byte
        c.lw    a2, 4(s0)
        .balign 16
        masked  s0, x0
        c.sw    s0, 124(s0)
        addi    a3, x0, -2              # 2 bytes before the data's end
        .balign 16
        masked  s1, a3
        c.sw    a2, 0(s1)
END
    sandbox 0x10000000 0x7fffe000 4096 "0" '' <<'END'
        gate
        addi    a0, x0, 9
        jal     x1, 0x10000000
END
)
compare "regions anywhere" "$room/image.hex" '' steps
report "regions anywhere: the trap and what is written" \
    "sandbox=0 trap=Store at=00001ffe out= written=0000107d:10" \
    "$(run --written <"$room/image.hex" | head -n 1)"

# Code in the page of a neighbour's guard zone, which can't be read there: above it, and below it.
image 1 3 >"$room/image.hex" < <(
    sandbox 0x01000000 0x02800100 256 "" "" <<'END'
        masked  t6, x0
        lbu     a0, -2048(t6)
END
    sandbox 0x027ff000 0x03800e00 256 "" "" <<'END'
        li      a0, -1
        .balign 16
        masked  t6, a0
        lw      a0, 2047(t6)
END
    sandbox 0x03801f00 0x04800e00 256 "" "" <<'END'
        li      a0, -1
        .balign 16
        masked  t6, a0
        sw      a0, 2047(t6)
END
)
compare "code in the page of a guard zone" "$room/image.hex" '' steps
report "code in the page of a guard zone: where they trap" \
    $'trap=Load at=027ff900\ntrap=Load at=038016fe\ntrap=Store at=048016fe' \
    "$(run <"$room/image.hex" | sed 's/sandbox=. //; s/ out=//')"

symbol() { riscv64-unknown-elf-nm out/loader | sed -n "s/^\([0-9a-f]*\) . $1$/0x\1/p"; }

try_mirrors 0x80000000 "$(symbol window) + 0x11000" # the pool's second page, after a page table

# What a reset leaves in memory is nothing to rely on.
head -c $(($(symbol stack_top) - $(symbol loader_memory))) /dev/zero | tr '\0' '\377' >"$room/ones"
export QEMU_OPTIONS="-device loader,file=$room/ones,addr=$(symbol loader_memory),force-raw=on"
compare "where memory isn't 0 at first" "$room/image.hex" '' steps
unset QEMU_OPTIONS

one() { sandbox "$1" "$2" "$3" "" "" <<<ebreak; } # code base, data base, data size

refused_by_loader() { # reason; the image on standard input
    local found
    found=$(run; echo "status $?")
    report "the loader refuses: $1" "device: $1"$'\nstatus 2' "$found"
}

refused_by_loader "sandbox 0: its code is where the host is" \
    < <(image 2 1 < <(one 0x80000000 0x01800000 4096))
refused_by_loader "sandbox 0: its code is where the host is" \
    < <(image 2 1 < <(one 0x90001f00 0x01800000 4096))
refused_by_loader "sandbox 0: its data or guard zones are where the host is" \
    < <(image 2 1 < <(one 0x01000000 0x90002f00 256))
refused_by_loader "sandbox 1: its data or guard zones are where the host is" \
    < <(image 2 2 < <(one 0x01000000 0x01800000 4096; one 0x02000000 0x7ffff000 4096))
image 2 1 >"$room/image.hex" < <(one 0x90002000 0x90006f00 256)
compare "the first addresses after the host" "$room/image.hex" '' steps
for ((number = 1; number <= 16; number++)); do
    printf '.sandbox 2048\n ebreak\n'
done >"$room/small.s"
refused_by_loader "sandbox 14: no entry of physical memory protection is left for it" \
    < <("$SFI" build <"$room/small.s")

# ---- Attacks: refused, and what they do where nobody checks

# Each has the gates exit at 01000000 and put at 01000010, and begins at 01000020.
attacks=()
attack() { # name, the verdict's rule and address, what is found unchecked; assembly on its input
    local found seconds=60
    [ "$4" != "status 124" ] || seconds=3 # it never ends
    image 1 1 >"$room/image.hex" < <(sandbox 0x01000000 0x01800000 4096 "0 1" '')
    cp "$room/image.hex" "$room/attack${#attacks[@]}.hex"
    attacks+=("$1")
    found=$(run <"$room/image.hex"; echo "status $?")
    report "$1: checked" "refused findings=1 first=$2 sandbox=0 at=$3"$'\nstatus 1' "$found"
    found=$(run --unchecked --seconds "$seconds" <"$room/image.hex" 2>"$room/log"; echo "status $?")
    report "$1: unchecked" "$4" "$found"
}

attack "a store to the UART" V5 01000028 \
    $'!sandbox=0 trap=Break at=0100002c out=\nstatus 0' <<'END'
        gate
        gate
        lui     a0, 0x90000
        li      a1, '!'
        sb      a1, 0(a0)
        ebreak
END
attack "a load from the host, of the image's first letter" V5 01000024 \
    $'sandbox=0 exit=83 out=\nstatus 0' <<'END'
        gate
        gate
        lui     a0, 0x88000
        lbu     a0, 0(a0)
        nop
        jal     x1, 0x01000000
END
attack "a store into the host: it knows of no sandbox any more" V5 01000024 "status 0" <<END
        gate
        gate
        lui     a0, %hi($(symbol world))
        sw      x0, %lo($(symbol world))(a0)
        ebreak
END
attack "a jump to the host, which ends it" V6 01000028 "status 0" <<END
        gate
        gate
        lui     a0, %hi($(symbol finish))
        addi    a0, a0, %lo($(symbol finish))
        jalr    x0, 0(a0)
END
attack "csrw: a trap goes nowhere any more" V1 01000020 "status 124" <<'END'
        gate
        gate
        csrw    stvec, x0
        ebreak
END

image 1 1 >"$room/image.hex" < <(sandbox 0x01000000 0x01800000 4096 "" '' <<'END'
        lui     a0, 0x90000
        li      a1, '!'
        .balign 16
        masked  t6, a0
        sb      a1, 4(t6)
END
)
report "a store to the UART, masked" "sandbox=0 trap=Break at=01000020 out= written=01800004:21" \
    "$(run --written <"$room/image.hex")"

# Accepted code may hold these three instructions, which a debugger takes for a call: 4 writes the
# text at a1.
image 1 1 >"$room/image.hex" < <(sandbox 0x01000000 0x01800000 4096 "" 6869210a00 <<'END'
        mv      a1, x26
        li      a0, 4
        .balign 16
        slli    x0, x0, 31
        ebreak
        srai    x0, x0, 7
END
)
report "the ebreak of semihosting" "sandbox=0 trap=Break at=01000014 out=" \
    "$(run <"$room/image.hex")"
report "the ebreak of semihosting, where that is on" \
    $'hi!\nsandbox=0 trap=Break at=01000020 out=' \
    "$(QEMU_OPTIONS='-semihosting-config enable=on,target=native' run <"$room/image.hex" 2>&1)"

# ---- Code in words, whose typed registers an entry sets

image 1 1 < <(sandbox 0x01000000 0x01800000 4096 "" '' <<'END'
        sw      x25, 0(x3)
        sw      x30, 4(x4)
        sw      x31, 8(x29)
        sw      x2, 12(x26)
        ebreak
END
) | sed 's/^53464931/53464957/' >"$room/words.hex"
report "registers at an entry of code in words" \
    "sandbox=0 trap=Break at=01000010 out= written=01800000:fc,01800007:01,0180000c:f0,0180000d:0f,0180000e:80,0180000f:01" \
    "$(run --written <"$room/words.hex")"

image S 1 < <(sandbox 0x01000000 0x40000000 4096 "" '' <<'END'
        sw      x25, 0(x3)
        sw      x30, 4(x4)
        sw      x31, 8(x29)
        sw      x27, 12(x26)
        ebreak
END
) | sed 's/^5346493S/53464953/' >"$room/single.hex"
report "registers at an entry of code with single masks" \
    "sandbox=0 trap=Break at=01000010 out= written=40000000:fc,40000007:01,4000000c:ff,4000000d:0f,4000000f:40" \
    "$(run --written <"$room/single.hex")"

# The page table has no low addresses, so accesses trap in the zone at zero.
for access in "lb 0 -2048" "sw 0 0" "lw 4095 -3" "lbu 4095 1" "sh 4095 2046"; do
    read -r operation base offset <<<"$access"
    printf '.format single\n.sandbox 4096\n li a0, %s\n %s a1, %s(a0)\n ebreak\n' "$base" "$operation" "$offset" |
        "$SFI" build --at 1000000:40000000 >"$room/zone.hex"
    wanted=$("$SFI" run <"$room/zone.hex")
    report "$operation in the zone at zero, at $base and $offset" "trap $wanted" \
        "$([[ $wanted == *trap=[LS]* ]] && echo trap) $(run --steps <"$room/zone.hex")"
done
"$SFI" build < <(in_format ../hi.s single) >"$room/zone.hex"
report "the fourth format at its usual place" $'device: sandbox 0: its data or guard zones are where the host is\nstatus 2' \
    "$(run <"$room/zone.hex"; echo "status $?")"

# ---- The commands and lines of docs/C.md and docs/DEVICE.md, whose numbers are those of gcc 12

block() { # a page, the language of its fences, which of these blocks
    awk -v fence="\`\`\`$2" -v number="$3" '
        /^```/ { inside = !inside; mine = inside && $0 == fence && ++count == number; next }
        mine' "$here/../../docs/$1"
}

in_docs() { # what is tried, a page, which block of output; commands on standard input
    report "$2: $1" "$(block "$2" '' "$3")" "$(cd "$room/top" && bash 2>&1)"
}

try_docs() {
    local found
    block C.md c 1 >"$room/top/hello.c"
    block DEVICE.md c 1 >"$room/top/outside.c"
    in_docs "the recipe" C.md 1 < <(block C.md sh 1)
    in_docs "the recipe" DEVICE.md 1 < <(block DEVICE.md sh 1)
    found=$(cd "$room/top" && block DEVICE.md sh 1 | sed 's/hello/outside/g' | bash 2>&1 | sed '/ pc=/d')
    report "DEVICE.md: the recipe of outside.c" 1 "$(uniq <<<"$found" | wc -l)"
    in_docs "a trap, a refusal, two sandboxes" DEVICE.md 2 < <(block DEVICE.md sh 2)
}

linked() { # a program of cases, its sandbox, an option of the tool
    ../../tools/sfi-cc --format words --sandbox "$2" "$3" -o "$room/$1.elf" "cases/$1.c"
}

mkdir "$room/top"
ln -s "$(realpath ../../tools)" "$(realpath ..)" "$room/top"
ln -s "$SFI" "$room/top/sfi"
linked sender 0 --gate=post=4 && linked adder 1 --gate=take=5 &&
    ../../tools/sfi-image -o "$room/image.hex" "$room/sender.elf" "$room/adder.elf"
report "words between two C programs" \
    $'sandbox=0 exit=0 out=\nsandbox=1 exit='"$((39 * 40 * 79 / 6)) out=" \
    "$(run <"$room/image.hex")"
case $(riscv64-unknown-elf-gcc -dumpversion) in
12.*) try_docs ;;
*) skip 1 "the lines of docs" "they are those of gcc 12" ;;
esac

# ---- What the loader finds at its start, and what a vendor adds

source "$here/test_premises.sh"
try_vendor 01000000 1
try_report "$room/words.hex"
try_debugging
try_functions 01000000

# ---- The library by itself

source "$here/test_library.sh"
try_library

# ---- Gates without a trap

source "$here/test_springboards.sh"
try_springboards

# ---- The checker on the device

source "$here/test_checker.sh"

# ---- What run.sh refuses

for option in --rounds --turn --seconds; do
    most=4294967295
    [ $option != --turn ] || most=429496729
    for number in 0 -1 1.5 x $((most + 1)) 99999999999 ''; do
        refused_by_script 3 "run.sh: $option takes a number from 1 to $most" "$option" "$number"
    done
    refused_by_script 3 "run.sh: $option takes a number from 1 to $most" "$option"
done
refused_by_script 3 "run.sh: --input takes a value; --help says which" --input
refused_by_script 3 "run.sh: there is no option --round; --help names them" --round 3
no_digits="isn't pairs of hexadecimal digits:"
refused_by_script 2 "run.sh: --input $no_digits 414" --input 414
refused_by_script 2 "run.sh: --input $no_digits 4g" --input 4g
"$SFI" build <<<".sandbox 1" >"$room/image.hex"
refused_by_script 2 "run.sh: the image $no_digits source fault 3 Number line 1" --steps
xxd -r -p ../smallest.hex | head -c 32 >"$room/image.hex"
refused_by_script 2 "run.sh: the image $no_digits SFI1" --steps
echo 00112233 >"$room/image.hex"
refused_by_script 2 "<stdin>: the first four bytes are of no format"$'\nlayout fault 1 Magic' --steps
cp ../smallest.hex "$room/image.hex"
QEMU_OPTIONS=-none refused_by_script 4 \
    "run.sh: QEMU failed in status 1: qemu-system-riscv32: -none: invalid option"
SFI=./none refused_by_script 3 \
    "run.sh: ./none isn't there (the program sfi; SFI=PATH names another)"
build cases/endless.s 2 >"$room/image.hex"
report "run.sh: a compiler that isn't there" \
    "run.sh: the host isn't built; RISCV=PATH names the compiler, gcc for RISC-V"$'\nstatus 3' \
    "$({ MAKEFLAGS=B RISCV=./none run <"$room/image.hex" 2>&1; echo "status $?"; } |
        grep -v '^make')"
report "run.sh: a run that doesn't end" \
    "run.sh: the run wasn't over after 1 seconds; --seconds N gives it N, and with fewer --rounds\
 it ends by itself"$'\nstatus 124' \
    "$({ run --seconds 1 <"$room/image.hex" 2>&1; echo "status $?"; } | grep -v '^qemu')"
finish
