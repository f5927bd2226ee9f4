#!/usr/bin/env bash
# Compiles these programs of C++ with --library c++, and compares what they do with what native g++ makes of them.
#
#     examples/c/plus_plus/test.sh [SFI]      # SFI is the program; ./sfi at the top if absent
set -uo pipefail
unset CDPATH
here=$(cd "$(dirname "${BASH_SOURCE[0]}")" && pwd)
sfi=$(realpath "${1:-$here/../../../sfi}")
tools=$(realpath "$here/../../../tools")
cd "$here" || exit 1
source ../../harness.sh

options="-std=c++17 -Wall -Wextra -Werror"
no_exceptions="sfi-cc: exceptions are those of --library c++, without -fno-exceptions and --movable"
no_wide="--library c++ has streams of char alone, and no times and money of locales"

# Exit code and output, which has standard error's at its place: so a native program, too, puts its output by lines.
outcome() { # a command
    local status
    "$@" >"$room/output" 2>&1
    status=$?
    echo "exit=$status $(cat "$room/output")"
}

compile() { # the image; options and files
    "$tools/sfi-cc" --program "$sfi" --library c++ -o "$1" $options "${@:2}" 2>"$room/messages"
}

try_program() { # program, level of optimization, its option; inputs
    local input level=$2 image="$room/$1.hex"
    g++ $options "$3" -O2 -o "$room/$1" "$1.cpp" 2>"$room/messages" && compile "$image" "$3" "$level" "$1.cpp" ||
        { report "$1.cpp $level: compiled" programs "$(cat "$room/messages")"; return; }
    for input in "${@:4}"; do
        ../inputs.py "$input" >"$room/input"
        report "$1.cpp $level, $input" "$(outcome stdbuf -oL "$room/$1" <"$room/input")" "$(outcome "$sfi" exec "$image" <"$room/input")"
    done
}

try_refused() { # what sfi-cc says at last; the program; options
    echo "$2" >"$room/refused.cpp"
    report "$2" "$1" "$(compile "$room/refused.hex" "${@:3}" "$room/refused.cpp"; grep -m 1 ^sfi-cc "$room/messages")"
}

why=$(lacking g++ riscv64-unknown-elf-gcc newlib)
if [ -n "$why" ]; then
    skip 1 "C++ with its library" "$why"
else
    try_program containers -O2 -fno-exceptions empty prose json-tree
    try_program types -O0 -frtti empty
    try_program types --debug -frtti empty
    for level in -O2 -O0 --debug --format=2; do
        try_program exceptions $level -fexceptions empty
    done
    try_refused "$no_exceptions" 'int main() { throw 1; }' -fno-exceptions
    try_refused "$no_exceptions" 'int main() { throw 1; }' --movable
    for level in -O2 --debug; do
        try_program streams $level -fexceptions empty prose
    done
    try_refused "sfi-cc: std::wcout: $no_wide" $'#include <iostream>\nint main() { std::wcout << 1; }'
    try_refused "sfi-cc: std::time_put: $no_wide" \
        $'#include <ctime>\n#include <iomanip>\n#include <iostream>\nint main() { std::tm tm{}; std::cout << std::put_time(&tm, "%Y"); }'
fi
finish
