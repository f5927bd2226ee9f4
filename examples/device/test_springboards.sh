# Gates without a trap, for test.sh, whose functions this uses: the lines are those of `sfi run`, with steps and
# registers, also where an interrupt comes in a slot and where a hostile image goes to a stub's words. Boards with
# a mistake are seen by the same lines.

springing=(--springboards)

# Calls of each gate, with an interrupt every 1000 instructions, so that one comes at each instruction of a call.
calls_source() { # format
    cat <<'END'
.sandbox 4096
.gate exit 0
.gate put 1
.gate get 2
.gate post 4
.gate take 5
        li   s1, 3000
again:  li   a0, 0
        li   a1, 0
        call put
        mv   a0, zero
        mv   a1, s1
        call post
        call take
        add  s0, s0, a0
        li   a1, 0
        call get
        addi s1, s1, -1
        bnez s1, again
        mv   a0, s0
        call exit
END
}

# Registers that a call may not change, before one that is answered, one that ends the turn, and one that fails.
registers_source() {
    local service register
    for service in put=1 yield=3 get=2; do
        printf '.sandbox 4096\n.gate call %s\n' "${service#*=}"
        for register in 5 6 7 8 9 12 13 14 15 16 17 18 19 20 21 22 23 28; do
            printf ' li x%s, %s\n' "$register" $((0x80000000 + 4 * register))
        done
        [ "$service" != get=2 ] || printf ' li a0, 0x80000000\n li a1, 256\n'
        printf ' call call\n ebreak\n'
    done
}

# Both loaders' registers, which are those of `sfi run`, but for the instruction's name.
compare_registers() { # what is tried
    report "$1, with registers" \
        "$("$SFI" run --rounds 3 --report <"$room/image.hex" | sed 's/\(pc=[0-9a-f]* [0-9a-f]*\) .*/\1/')" \
        "$(./run.sh "${springing[@]}" --steps --rounds 3 --report <"$room/image.hex")"
}

try_calls() { # format
    calls_source >"$room/calls.s"
    registers_source >"$room/registers.s"
    turns=(10000 1) each=1
    build "$room/calls.s" "$1" >"$room/image.hex"
    compare "springboards, each gate, format $1" "$room/image.hex" '' steps
    turns=(10000 10) each=$all
    build "$room/registers.s" "$1" >"$room/image.hex"
    compare_registers "springboards, format $1"
}

# ---- Images by hand, whose gates are exit at 01000000 and put at 01000010

# Goes once to a word of the stub of put, with registers forged that aren't typed.
entry_source() { # how far from the gate
    cat <<END
        gate
        gate
        addi    x8, x8, 1
        srli    x9, x8, 1
        bne     x9, x0, .Lagain
        lui     x1, 0x80000
        lui     x5, 0x80000
        lui     x10, 0x80001
        lui     x11, 0x80002
        lui     x12, 0x80003
        lui     x15, 0x80006
        and     x31, x12, x27
        jal     x0, 0x01000010 + $1
        .balign 16
.Lagain: ebreak
END
}

in_words() { sed 's/^53464931/53464957/'; } # an image with the first format's name

# The third format's stub masks into x30.
words_stub() { sed 's/^        gate$/        ecall\n        and     x30, x1, x25\n        or      x30, x30, x24\n        jalr    x0, 0(x30)/'; }

try_entries() {
    local word
    for word in 0 4 8 12; do
        entry_source "$word" | words_stub >"$room/entry.S"
        image 1 1 < <(sandbox 0x01000000 0x01800000 4096 "0 1" '' <"$room/entry.S") | in_words >"$room/image.hex"
        compare_registers "springboards, word $word of a stub in words"
    done
    image 1 1 < <(sandbox 0x01000000 0x01800000 4096 "0 1" '' < <(entry_source 0)) >"$room/image.hex"
    compare_registers "springboards, a stub in bundles"
}

# A listed gate where the image has no ecall, which the third format accepts.
no_ecall() {
    image 1 1 < <(sandbox 0x01000000 0x01800000 4096 "1" '' <<'END'
        addi    x10, x10, 7
        bne     x10, x0, .Lpast
        ebreak
.Lpast: ebreak
        jal     x0, 0x01000000
END
    ) | in_words
}

# The longest code that a source can have.
try_long_code() {
    { calls_source | sed 's/3000/3/' && echo '.option norvc' && yes ' addi a2, a2, 1' | head -n 65000; } >"$room/large.s"
    build "$room/large.s" words >"$room/image.hex"
    compare "springboards, long code" "$room/image.hex" '' steps
}

# ---- Random programs

random_source() { # seed, format
    python3 - "$1" <<'END'
import random
import sys

choose = random.Random(int(sys.argv[1]))
print(".sandbox 4096\n.gate exit 0\n.gate put 1\n.gate get 2\n.gate yield 3\n.gate post 4\n.gate take 5")
names = "t0 t1 t2 s0 s1 a2 a3 a4 a5 a6 a7 s2 s3 s4 s5 s6 s7 t3".split()
numbers = [0, 1, 4, 16, 255, 256, 257, 1000, 4095, 4096, 0x7fffffff, 0x80000000, 0xffffffff, 0x1800000, 0x1800ffc]
for _ in range(60):
    if choose.random() < 0.3:
        print(f" li {choose.choice(names)}, {choose.choice(numbers)}")
    elif choose.random() < 0.3:
        print(f" {choose.choice(['add', 'sub', 'xor', 'sltu'])} {', '.join(choose.choices(names, k=3))}")
    elif choose.random() < 0.3:
        print(f" la a2, room\n sw {choose.choice(names)}, {4 * choose.randrange(8)}(a2)")
    else:
        for name in ("a0", "a1"):
            number = choose.choice(numbers + ["room"])
            print(f" la {name}, room" if number == "room" else f" li {name}, {number}")
        print(f" call {choose.choice(['put', 'get', 'yield', 'post', 'take'])}")
print(" ebreak\n.data\nroom: .zero 1024")
END
}

try_random() { # format; a third of the programs, by turns
    local seed
    for ((seed = 0; seed < 20; seed++)); do
        [ -n "$all" ] || has_turn "$seed" 3 || continue
        random_source "$seed" >"$room/random.s"
        build "$room/random.s" "$1" >"$room/image.hex"
        report "springboards, random program $seed, format $1" \
            "$("$SFI" run --rounds 100 --quantum 1000000 --input 000102 --report <"$room/image.hex" | sed 's/\(pc=[0-9a-f]* [0-9a-f]*\) .*/\1/')" \
            "$(./run.sh "${springing[@]}" --steps --rounds 100 --input 000102 --report <"$room/image.hex")"
    done
}

# ---- Edited hosts

# A mistake may have a run never end: --seconds 60 is for one that has to.
on_edited_boards() { # words of run.sh. The image is $room/image.hex
    (cd "$edited" && OUT=$room/edited_out ./run.sh "${springing[@]}" --steps --rounds 100 --seconds 5 "$@" <"$room/image.hex")
}

# The instructions of the host for a put of no byte, which README.md has: where they are counted with the steps.
try_price() {
    local price
    price=$(sed -n 's/^| the same \[without a trap\].* | \([0-9]*\),.*/\1/p' "$here/README.md")
    case $(riscv64-unknown-elf-gcc -dumpversion) in
    12.*) ;;
    *) skip 1 "what a call costs" "the number is that of gcc 12" && return ;;
    esac
    printf '.sandbox 4096\n.gate put 1\n li a1, 0\n call put\n ebreak\n' >"$room/price.s"
    build "$room/price.s" words >"$room/image.hex"
    edit_host examples/device/board.S 's/^        sw      t1, FRAME_BEFORE(a0)$/        nop/'
    report "springboards: a put of no byte" "steps=$((price + $(steps_of < <("$SFI" run <"$room/image.hex"))))" \
        "steps=$(on_edited_boards --seconds 60 | steps_of)"
}

steps_of() { sed -n 's/.* steps=\([0-9]*\) .*/\1/p'; }

seen() { # the mistake; words of run.sh. The image is $room/image.hex, and the host is edited
    local wanted found status=0
    wanted=$("$SFI" run --rounds 100 --quantum 1000000 <"$room/image.hex")
    found=$(on_edited_boards "${@:2}" | sed '/ pc=/d'; echo "status ${PIPESTATUS[0]}")
    case $found in
    "status 3") status=1 ;;                 # the host isn't built
    "$wanted"$'\nstatus 0') status=1 ;;
    esac
    report_as "$status" "a board with a mistake: $1" "lines of their own" "$found"
}

try_mistakes() {
    image 1 1 < <(sandbox 0x01000000 0x01800000 4096 "0 1" '' <<'END'
        gate
        gate
        nop
        nop
        nop
        jal     x1, 0x01000010          # which comes back to the next bundle
        masked  x5, x0
        sb      x0, 0(x5)
        jal     x1, 0x01000010
        ebreak
END
    ) >"$room/image.hex"
    compare "springboards, a store after a call" "$room/image.hex" '' steps
    edit_host examples/device/board.S 's/^        mv      t2, a0$/&\n        la      x26, board_call/'
    seen "it doesn't restore x26"

    entry_source 8 | words_stub >"$room/entry.S"
    image 1 1 < <(sandbox 0x01000000 0x01800000 4096 "0 1" '' <"$room/entry.S") | in_words >"$room/image.hex"
    edit_host examples/device/springboards.c 's/^    \*(uint32_t \*)sfi_device_sv32_at.*/    uint32_t *to = sfi_device_sv32_at(\&space, address);\
    to[0] = 0x13;\
    to[1] = ((at + 0x800) \& 0xfffff000) | 31 << 7 | 0x37;\
    to[2] = (at \& 0xfff) << 20 | 31 << 15 | 0x67;/'
    seen "three words in the third format"

    no_ecall >"$room/image.hex"
    compare "springboards, a listed gate without an ecall" "$room/image.hex" '' steps
    edit_host examples/device/springboards.c 's/sfi_device_word_at(part->code + (address - part->code_base)) != ECALL || //'
    seen "a springboard where no ecall stood"

    build "$room/calls.s" words >"$room/image.hex"
    edit_host examples/device/springboards.c 's/frame.pc += ECALL_SIZE/frame.pc += 0/'
    seen "it forgets a call that an interrupt came after" --turn 1
    edit_host examples/device/board.S 's/^slot:   csrci.*/slot:   nop/'
    seen "interrupts stay on" --turn 1
}

try_springboards() {
    local format
    on=("${springing[@]}")
    for format in $formats; do
        compare_examples "$format"
        try_calls "$format"
        try_random "$format"
    done
    compare "springboards, sixteen sandboxes" "$room/sixteen.hex" '' steps
    try_entries
    try_long_code
    try_price
    try_mistakes
    on=()
}
