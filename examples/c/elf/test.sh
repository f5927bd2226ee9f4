#!/usr/bin/env bash
# Links archives, libraries, two sandboxes and constructors in the usual format, and in others by turns, debugs
# programs by gdb, and tries what is refused.
#
#     examples/c/elf/test.sh [SFI]      # SFI is the program; ./sfi at the top if absent
set -uo pipefail
unset CDPATH
here=$(cd "$(dirname "${BASH_SOURCE[0]}")" && pwd)
sfi=$(realpath "${1:-$here/../../../sfi}")
runtime=$(realpath "$here/../../../crates/sfi_run/out/libsfi_run.a")
tools=$(realpath "$here/../../../tools")
cd "$here/.." || exit 1
source ../harness.sh
export sfi tools room

# What a command says that has to fail in status 1: its first line.
refusal() {
    local status
    "$@" >"$room/output" 2>"$room/messages"
    status=$?
    [ "$status" = 1 ] || echo "status $status"
    head -n 1 "$room/messages"
}

elf_of() { # output, format, options and files
    local output="$room/$1" format=$2
    shift 2
    "$tools/sfi-cc" --program "$sfi" --format "$format" -o "$output" "$@"
}

# Where the first sandbox's code lies unless told.
first_code() { # format
    case "$1" in single) echo 01800000 ;; *) echo 01000000 ;; esac
}

line_of() { # ELF files; what the sandboxes do
    "$tools/sfi-image" "$@" | "$sfi" run --rounds 100 --quantum 10000 | sed 's/ steps=[0-9]*//'
}

try_archive() { # format
    mkdir -p "$room/objects.$1"
    elf_of "objects.$1/twice.o" "$1" -c elf/twice.c && elf_of "objects.$1/unused.o" "$1" -c elf/unused.c &&
        riscv64-unknown-elf-ar rcs "$room/objects.$1/libtwice.a" "$room/objects.$1"/*.o &&
        elf_of "archive.$1.elf" "$1" elf/calls_twice.c "-L$room/objects.$1" -ltwice
    report "an archive, format $1" "sandbox=0 exit=42 out=" "$(line_of "$room/archive.$1.elf")"
}

try_pair() { # format
    local wanted
    wanted=$(printf 'sandbox=0 exit=0 out=\nsandbox=1 exit=%s out=%s' "$(($(paste -sd+ <<<"$primes")))" "$(digits_of <<<"$primes")")
    elf_of "post.$1.elf" "$1" primes_post.c && elf_of "take.$1.elf" "$1" --sandbox 1 primes_take.c
    report "two sandboxes, format $1" "$wanted" "$(line_of "$room/post.$1.elf" "$room/take.$1.elf")"
}

try_linked() { # format
    elf_of "constructors.$1.elf" "$1" elf/constructors.cpp
    report "constructors by priority, format $1" "sandbox=0 exit=0 out=31323334" "$(line_of "$room/constructors.$1.elf")"
    elf_of "weak.$1.elf" "$1" elf/weak.c elf/strong.c
    report "a weak small object that another file defines, format $1" "sandbox=0 exit=77 out=" "$(line_of "$room/weak.$1.elf")"
    elf_of "small.$1.elf" "$1" elf/small.s
    report "small objects in a loop, format $1" "sandbox=0 exit=165 out=" "$(line_of "$room/small.$1.elf")"
    elf_of "gate.$1.elf" "$1" --gate finish=0 elf/gate.c
    report "a gate of another name, format $1" "sandbox=0 exit=9 out=" "$(line_of "$room/gate.$1.elf")"
    elf_of "null.$1.elf" "$1" elf/null.c
    report "a call of null traps, format $1" "trap=Break at=$(first_code "$1")" \
        "$(line_of "$room/null.$1.elf" | grep -o 'trap=[A-Za-z]* at=[0-9a-f]*')"
    report "a frame larger than the stack, format $1" \
        "sfi-cc: frame.elf: the frame of deep has 20016 bytes, and the stack has room for XX: give --stack 20032 or more" \
        "$(refusal elf_of frame.elf "$1" elf/frame.c | sed 's/room for [0-9]*:/room for XX:/')"
    elf_of "frame.$1.elf" "$1" --stack 20032 elf/frame.c
    report "a frame that has its room, format $1" "sandbox=0 exit=7 out=" "$(line_of "$room/frame.$1.elf")"
}

try_clang() { # format
    [ -z "$no_clang" ] || { skip 1 "many arguments by clang, format $1" "$no_clang" && return; }
    elf_of "many.$1.elf" "$1" --cc clang elf/many_arguments.c
    report "many arguments by clang, format $1" "sandbox=0 exit=221 out=" "$(line_of "$room/many.$1.elf")"
}

# Floating point, by the functions of GCC's library, and a folder of assembly as a library.
try_libraries() { # format
    if [ -z "$no_floats" ]; then
        elf_of "floats.$1.elf" "$1" elf/floats.c
        report "floating point, format $1" "sandbox=0 exit=42 out=" "$(line_of "$room/floats.$1.elf")"
    else
        skip 1 "floating point, format $1" "$no_floats"
    fi
    elf_of "library.$1.elf" "$1" --library "$room/library" elf/calls_twice.c
    report "a folder of assembly, format $1" "sandbox=0 exit=42 out=" "$(line_of "$room/library.$1.elf")"
    elf_of "heap.$1.elf" "$1" --heap 1000 elf/heap.c
    report "a heap, and main's arguments, format $1" "sandbox=0 exit=1000 out=" "$(line_of "$room/heap.$1.elf")"
}

# A loop around a body of $1 accesses, which its branch reaches, just not any more, or where `as` may think so.
far_loop() { # accesses
    printf '.globl main\nmain: li t0,3\nli a0,0\nla a1,word\nloop: addi t0,t0,-1\nbeqz t0,end\n'
    printf 'sw a0,0(a1)\n%.0s' $(seq "$1")
    printf 'addi a0,a0,1\nbnez t0,loop\nend: ret\n.bss\nword: .zero 4\n'
}

try_far_branches() { # format, accesses
    far_loop "$2" >"$room/far.s"
    elf_of far.elf "$1" "$room/far.s"
    report "branches over $2 accesses, format $1" "sandbox=0 exit=2 out=" "$(line_of "$room/far.elf")"
}

# A step of a data register before a load into x0 keeps its masks, of which there are so many.
try_step() { # format, masks
    elf_of step.elf "$1" elf/step.s
    report "a load into x0 after a step, format $1" "accepted exit=5" "$("$tools/sfi-image" "$room/step.elf" >"$room/step.hex"
        echo "$("$sfi" check <"$room/step.hex" | cut -d' ' -f1) $("$sfi" run <"$room/step.hex" | grep -o 'exit=[0-9]*')")"
    report "masks between them, format $1" "$2" "$(riscv64-unknown-elf-objdump -d "$room/step.elf" | grep -B3 'lw.*zero,0(sp)' | grep -cE 'and|or')"
}

# More small objects than there is room for.
try_many() {
    { for number in $(seq 60); do echo "volatile int objects$number[16];"; done
        echo "int main(void) { return 40"; printf ' + (objects%s[3] = 1)' $(seq 60); echo "; }"; } >"$room/many.c"
    elf_of many.elf "$usual" "$room/many.c"
    report "more small objects than there is room for" "sandbox=0 exit=100 out=" "$(line_of "$room/many.elf")"
}

# What gdb shows of a program, and what the program puts meanwhile.
try_gdb() { # format
    elf_of "debugged.$1.elf" "$1" -Og -g elf/gdb/debugged.c
    "$tools/sfi-gdb" --input 68690a "$room/debugged.$1.elf" -nx -batch -x elf/gdb/session.gdb >"$room/output" 2>"$room/messages"
    report "a session of gdb, format $1" "$(cat elf/gdb/wanted)" "$(grep '^= ' "$room/output")"
    report "the sections in gdb, format $1" "matched" "$(grep '^Section ' "$room/output" | sed 's/.*: \(.*\)\./\1/' | sort -u)"
    report "16-bit instructions in gdb, format $1" 0 "$(grep -c '\.2byte' "$room/output")"
    report "a line that traps, format $1" "at[-2] = by;" "$(grep -A2 SIGSEGV "$room/output" | grep -o 'at\[-2\].*')"
    report "the console beside gdb, format $1" "heaviest hi heaviest hi" "$(grep -xE 'heaviest|hi' "$room/messages" | paste -sd' ')"
}

# gdb says no more than the number of exit at the end of a program, here one of more than a byte.
try_end() { # format
    "$tools/sfi-gdb" "$room/heap.$1.elf" -nx -batch -ex continue -ex 'print $_exitcode' -ex backtrace >"$room/output" 2>&1
    report "a program's end in gdb, format $1" "[Inferior 1 (Remote target) exited with code 01750] \$1 = 1000 No stack." \
        "$(tail -n +2 "$room/output" | paste -sd' ')"
}

# From a function that the library calls back to main.
try_callers() { # format
    elf_of "callers.$1.elf" "$1" -Og -g elf/gdb/callers.c
    "$tools/sfi-gdb" "$room/callers.$1.elf" -nx -batch -ex continue -ex backtrace >"$room/output" 2>&1
    report "the library's callers in gdb, format $1" "compare qsort main" \
        "$(grep -oE '^#.*(compare|qsort|main) \(' "$room/output" | grep -oE 'compare|qsort|main' | paste -sd' ')"
}

# At turn k of a loop the pointer is k words above the numbers, and the sum is as computed here, or gdb doesn't show them.
try_kept() { # format, level
    elf_of "kept.$1.elf" "$1" "$2" -g elf/gdb/kept.c
    "$tools/sfi-gdb" "$room/kept.$1.elf" -nx -batch -x elf/gdb/kept.gdb >"$room/output" 2>"$room/messages"
    report "no wrong value is shown, format $1, $2" "12 turns" "$(grep -E '^(at|total) = ' "$room/output" | awk '
        { shown = $0; sub(/.* = /, "", shown) }
        /^at/ && shown !~ /optimized out/ && shown !~ ("<numbers" (turn ? "[+]" 4 * turn : "") ">") { print turn ": " $0 }
        /^total/ && shown !~ /optimized out/ && shown != sum { print turn ": " $0 }
        /^total/ { sum = odd(sum + (turn > 3 ? turn : 0), turn + 1); turn++ }
        function odd(a, b,  bit, found) {
            for (bit = 1; bit <= 64; bit *= 2) found += (int(a / bit) + int(b / bit)) % 2 * bit
            return found
        }
        BEGIN { sum = 0; turn = 0 }
        END { print turn " turns" }')"
}

# The variables of a program at its lines, with the passes and without.
try_variables() { # format
    local passes
    for passes in "" --; do
        elf_of "hash$passes.elf" "$1" -O2 -g ${passes:+--passes=} hash.c
        "$tools/sfi-gdb" --input "$(digits_of <<<'one two three two one two four')" "$room/hash$passes.elf" -nx -batch \
            -ex 'set $source = "hash.c"' -ex 'set $hits = 80' -x elf/gdb/variables.py >"$room/shown$passes" 2>"$room/messages"
    done
    report "variables with the passes and without, format $1" "many are known" \
        "$(python3 elf/gdb/variables.py "$room/shown--" "$room/shown" 2>&1)"
}

try_debugging() {
    local format
    has gdb-multiarch || { skip 1 "programs in gdb" "gdb-multiarch isn't there (Debian's package gdb-multiarch)" && return; }
    [ -f "$runtime" ] || { skip 1 "programs in gdb" "$runtime isn't built" && return; }
    succeeds "the library is linked" "$tools/libraries.py" sfi_run "$runtime" "$room/lib"
    export SFI_RUN_LIBRARY=$room/lib/libsfi_run.so
    for format in $(formats_due); do
        try_gdb "$format"
        try_end "$format"
        try_callers "$format"
        try_kept "$format" -O2
        try_kept "$format" -Og
        try_variables "$format"
    done
}

try_refusals() {
    report "an undefined symbol" "undefined reference to \`absent'" \
        "$(refusal elf_of x.elf "$usual" elf/undefined.c >/dev/null; grep -o 'undefined reference.*' "$room/messages" | head -n 1)"
    report "an ecall" "asm2elf: ecall.s:4: ecall: a sandbox calls its host through gates alone" "$(refusal elf_of x.elf "$usual" elf/ecall.s)"
    report "objects of two formats" "objects of several formats: compile all of them with one --format" \
        "$(elf_of two.o 2 -c elf/twice.c && refusal elf_of x.elf "$usual" elf/calls_twice.c "$room/two.o" >/dev/null
        grep -o 'objects of several.*' "$room/messages" | head -n 1)"
    report "two sandboxes at one place" \
        "sfi-image: $room/post.$usual.elf and $room/post.$usual.elf lie at one place: link each with a --sandbox of its own" \
        "$(refusal "$tools/sfi-image" "$room/post.$usual.elf" "$room/post.$usual.elf")"
    report "two formats in one image" "sfi-image: $room/post.$usual.elf and $room/take.elf are of different formats" \
        "$(elf_of take.elf 2 --sandbox 1 primes_take.c && refusal "$tools/sfi-image" "$room/post.$usual.elf" "$room/take.elf")"
    report "no ELF file" "sfi-image: elf/null.c is no linked ELF file of 32-bit RISC-V" "$(refusal "$tools/sfi-image" elf/null.c)"
    head -c 3000 "$room/post.$usual.elf" >"$room/short.elf"
    report "an ELF file that is cut off" "sfi-image: $room/short.elf is cut off, or no ELF file" \
        "$(refusal "$tools/sfi-image" "$room/short.elf")"
    riscv64-unknown-elf-strip -o "$room/bare.elf" "$room/post.$usual.elf"
    report "an ELF file without symbols" 1 "$(refusal "$tools/sfi-image" "$room/bare.elf" | grep -c 'link it by tools/sfi-cc')"
    report "a data region that is too small" 1 "$(refusal "$tools/sfi-image" --data 4096 "$room/post.$usual.elf" | grep -c "don't fit in 4096")"
}

why=$(lacking riscv64-unknown-elf-gcc)
if [ -n "$why" ]; then
    skip 1 "programs by ELF" "$why"
    finish
fi
no_clang=$(lacking clang) no_floats=$(lacking "floating point")
primes=$(seq 2 99 | factor | awk 'NF == 2 { print $2 }')
mkdir "$room/library"
riscv64-unknown-elf-gcc -S -O2 -march=rv32imc -mabi=ilp32 $(printf -- '-ffixed-x%s ' 24 25 26 27 29 30 31) \
    -o "$room/library/twice.asm" elf/twice.c
for format in $(formats_due); do
    try_archive "$format"
    try_pair "$format"
    try_linked "$format"
    try_clang "$format"
    try_libraries "$format"
    try_far_branches "$format" 222
    try_far_branches "$format" 255
done
try_step words 2
try_step single 1
try_many
try_debugging
try_refusals
finish
