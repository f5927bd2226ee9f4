#!/usr/bin/env bash
# Compares tool.c, which is the program by its library, with the program itself: each command on each example, status and
# text; and a text that doesn't fit, which leaves the rest of the array alone.
#
#     examples/tool/test.sh [LIBRARY [PROGRAM]]    # LIBRARY is a libsfi_tool_c.a, PROGRAM is the program sfi
set -uo pipefail
unset CDPATH
here=$(cd "$(dirname "${BASH_SOURCE[0]}")" && pwd)
top=$(cd "$here/../.." && pwd)
library=$(realpath "${1:-$top/crates/sfi_tool_c/out/libsfi_tool_c.a}")
SFI=$(realpath "${2:-$top/crates/sfi/out/sfi}")
source "$here/../harness.sh"

if ! [ -f "$library" ]; then
    skip 1 "all commands for C" "$library isn't built: tools/build_page.py"
    finish
fi
has gcc || { skip 1 "all commands for C" "gcc isn't there" && finish; }
[ -f "$SFI" ] || { echo "$SFI isn't there" && exit 1; }
flags=(-std=c11 -O2 -Wall -Wextra -pedantic -Werror "-I$top/crates/sfi_tool_c/include")
for name in tool edges; do
    succeeds "$name.c" gcc "${flags[@]}" "$here/$name.c" "$top/crates/sfi_run/c/heap.c" "$library" -o "$room/$name"
done
succeeds "sfi_tool.h in C++" g++ -x c++ -std=c++11 -Wall -Wextra -pedantic -Werror -fsyntax-only \
    "$top/crates/sfi_tool_c/include/sfi_tool.h"

lines=(build map check "check --report" "check --raw" dis "run --rounds 50 --report" "run --input 414" convert help "help run" --version
    nonsense "build --at 20500000:80000000" "move --at 20500000:80000000")
for text in "$top"/examples/*.s; do
    "$SFI" build <"$text" >"$room/image.hex"
    for line in "${lines[@]}"; do
        case $line in build* | map) input=$text ;; *) input=$room/image.hex ;; esac
        read -r -a words <<<"$line"
        report "$line on ${text##*/}" "$("$SFI" "${words[@]}" <"$input" 2>/dev/null; echo "status $?")" \
            "$("$room/tool" "${words[@]}" <"$input" 2>/dev/null; echo "status $?")"
    done
done
succeeds "edges" "$room/edges"
if has valgrind; then
    succeeds "tool.c gives back all memory" valgrind -q --error-exitcode=9 --leak-check=full --errors-for-leak-kinds=all \
        "$room/tool" dis <"$room/image.hex"
else
    skip 1 "tool.c in valgrind" "valgrind isn't there"
fi
finish
