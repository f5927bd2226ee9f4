#!/usr/bin/env bash
# Compiles, checks and runs the C examples in the usual format, two in each other one, on each input of expected.txt, and compares
# what they do with what the native programs did. Then reads the headers as C++, and compiles the programs of std.sh and compares them
# with native ones.
#
#     examples/c/test.sh [SFI]      # SFI is the program; ./sfi at the top if absent
set -uo pipefail
unset CDPATH
here=$(cd "$(dirname "${BASH_SOURCE[0]}")" && pwd)
sfi=$(realpath "${1:-$here/../../sfi}")
export SFI=$sfi
cd "$here" || exit 1
source ../harness.sh
source ./std.sh

check_image() { # program, format
    local verdict
    verdict=$("$sfi" check <"$room/$1.$2")
    report "$1, format $2: check" accepted "${verdict%% *}"
}

run_case() { # program, format, input, what is wanted
    local found
    found=$("$sfi" run --rounds 10000 --quantum 1000000 --input "$(./inputs.py "$3" | digits_of)" <"$room/$1.$2")
    report "$1, format $2, $3" "$4" "$(sed 's/^sandbox=0 //; s/ steps=[0-9]*//' <<<"$found")"
}

headers_in_cpp() {
    local header
    for header in gates.h numbers.h; do
        has g++ || { skip 1 "$header in C++" "g++ isn't there" && continue; }
        succeeds "$header in C++" g++ -std=c++98 -Wall -Wextra -Werror -Wno-long-long -x c++ -fsyntax-only "$header"
    done
}

why=$(lacking riscv64-unknown-elf-gcc)
export -f c_image lacking
export programs room
names=$(cut -d' ' -f1 expected.txt | uniq)
due 6 $names | while read -r program format; do echo "c_image $program $format $room/$program.$format"; done |
    xargs -P 2 -I WORDS bash -c WORDS 2>"$room/messages"
while read -r program format; do
    if [ ! -s "$room/$program.$format" ]; then
        [ -z "$why" ] && report "$program, format $format: compiled" image "$(cat "$room/messages")" ||
            skip "$(grep -c "^$program " expected.txt)" "$program, format $format" "$why"
        continue
    fi
    check_image "$program" "$format"
    while read -r name input wanted; do
        [ "$name" = "$program" ] && run_case "$program" "$format" "$input" "$wanted"
    done <expected.txt
done < <(due 6 $names)
headers_in_cpp
std_programs_as_natively
finish
