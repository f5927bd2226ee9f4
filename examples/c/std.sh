# The programs of std, which use standard headers alone, and two programs that are one image: compiled by each compiler
# that is there, and compared with what native gcc makes of std, in the usual format, and by turns in others.
std_programs="base64 json_tokens matrix_product functions ends"
warnings="-std=c11 -O2 -Wall -Wextra -Werror"

compiler_of() { # gcc or clang
    [ "$1" = clang ] && echo clang || echo riscv64-unknown-elf-gcc
}

compile() { # compiler, format; options and files
    local compiler=$1 format=$2
    shift 2
    ../../tools/sfi-cc --program "$sfi" --cc "$(compiler_of "$compiler")" --format "$format" $warnings "$@"
}

std_inputs_of() {
    case $1 in
    base64) echo empty prose base64-bytes ;;
    json_tokens) echo empty json-{deep,tree,unfinished} json_tokens-{escape,escapes,mark,string,word} ;;
    matrix_product) echo matrix_product-{large,mismatch,short,small,wrong} ;;
    functions) echo functions-bytes ;;
    ends) echo ends-{abort,assertion,exit,return} ;;
    esac
}

# The exit code and the output of a native program, in the words of `sfi run`.
native_line() { # program, input
    local output status
    output=$(./inputs.py "$2" | "$room/native/$1" 2>"$room/messages" | digits_of; exit "${PIPESTATUS[1]}")
    status=$?
    [ "$2" != ends-assertion ] || output=$(assertion_message | digits_of)
    echo "exit=$status out=$output"
}

# A sandbox has no other output for it, and the C library of another machine other words.
assertion_message() {
    echo "std/ends.c:$(grep -n 'assert(' std/ends.c | cut -d: -f1): Assertion \`first != 'a'' failed."
}

build_std() { # compiler, program, format
    compile "$1" "$3" -fhosted -fno-builtin -I include -o "$room/$1-$2.$3" "std/$2.c" "-L$room/$1.$3" -lsmall 2>"$room/messages"
}

try_std() { # compiler, program, format
    local input
    if ! build_std "$@"; then
        report "$2 by $1, format $3: compiled" image "$(cat "$room/messages")"
        return
    fi
    check_image "$1-$2" "$3"
    for input in $(std_inputs_of "$2"); do
        run_case "$1-$2" "$3" "$input" "$(native_line "$2" "$input")"
    done
}

# The small library's functions as an archive.
make_library() { # compiler, format
    local file at="$room/$1.$2"
    mkdir -p "$at"
    for file in library/*.c; do
        compile "$1" "$2" -fhosted -fno-builtin -I include -c -o "$at/$(basename "$file" .c).o" "$file" || return 1
    done
    riscv64-unknown-elf-ar rcs "$at/libsmall.a" "$at"/*.o
}

# The functions of the library that a program has are those that it calls, and what these call, also by default.
try_linking() { # compiler
    local names found way
    names=$(riscv64-unknown-elf-nm "$room/$1.$usual/libsmall.a" 2>"$room/messages" | awk '$2 == "W" && $3 !~ /^_/ { print $3 }')
    for way in "-fhosted -fno-builtin -I include library/*.c" ""; do
        compile "$1" "$usual" $way -o "$room/base64.elf" std/base64.c
        found=$(riscv64-unknown-elf-nm "$room/base64.elf" | awk '{ print $3 }' | grep -xF "$names" | sort | paste -sd' ')
        report "base64 by $1 $way: functions of the library" "getchar putchar" "$found"
    done
}

# As README.md has it: without an option.
try_hello() { # compiler, format
    ../../tools/sfi-cc --program "$sfi" --cc "$(compiler_of "$1")" --format "$2" hello.c >"$room/hello.hex" 2>"$room/messages"
    report "hello.c by $1, format $2" "Hello, world, 0" "$("$sfi" exec "$room/hello.hex" 2>&1), $?"
}

# Two programs in one image.
try_pair() { # compiler, format
    local wanted found primes at="$room/$1-pair.$2"
    primes=$(seq 2 99 | factor | awk 'NF == 2 { print $2 }')
    wanted=$(echo "sandbox=0 exit=0 out="
        echo "sandbox=1 exit=$(($(paste -sd+ <<<"$primes"))) out=$(digits_of <<<"$primes")")
    compile "$1" "$2" -o "$at.post.elf" primes_post.c && compile "$1" "$2" --sandbox 1 -o "$at.take.elf" primes_take.c &&
        ../../tools/sfi-image -o "$at" "$at.post.elf" "$at.take.elf"
    found=$("$sfi" run --rounds 100 --quantum 10000 <"$at" | sed 's/ steps=[0-9]*//')
    check_image "$1-pair" "$2"
    report "two programs by $1, format $2" "$wanted" "$found"
}

try_format() { # compiler, format
    local program
    if ! make_library "$1" "$2" 2>"$room/messages"; then
        report "$1 on the library, format $2" "no message" "$(cat "$room/messages")"
        return
    fi
    for program in $std_programs; do
        try_std "$1" "$program" "$2"
    done
    try_pair "$1" "$2"
    try_hello "$1" "$2"
}

try_compiler() { # compiler
    local compiler format
    while read -r compiler format <&3; do
        [ "$compiler" != "$1" ] || try_format "$1" "$format"
    done 3< <(due 4 gcc clang)
    try_linking "$1"
}

native_programs() {
    local program
    mkdir -p "$room/native"
    for program in $std_programs; do
        gcc -std=c11 -O2 -w -o "$room/native/$program" "std/$program.c" || return 1
    done
}

std_programs_as_natively() {
    local why
    why=$(lacking gcc python3)
    if [ -n "$why" ]; then
        skip 1 "programs with standard headers" "$why"
        return
    fi
    if ! native_programs 2>"$room/messages"; then
        report "std by native gcc" programs "$(cat "$room/messages")"
        return
    fi
    why=$(lacking riscv64-unknown-elf-gcc)
    if [ -n "$why" ]; then skip 1 "std by gcc" "$why"; else try_compiler gcc; fi
    why=$(lacking clang)
    if [ -n "$why" ]; then skip 1 "std by clang" "$why"; else try_compiler clang; fi
}
