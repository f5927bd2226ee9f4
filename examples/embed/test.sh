#!/usr/bin/env bash
# Builds the C library and the hosts beside this file, runs each on images that are accepted, refused, or no images, and compares
# what it prints with what is wanted. Says what it skips for want of a compiler. The toolchain's command rt has to be there.
#
#     examples/embed/test.sh [LIBRARY [RUNTIME [PROGRAM]]]    # a libsfi_c.a, a libsfi_run.a and an sfi that are built already
set -uo pipefail
unset CDPATH
library=${1:+$(realpath "$1")}
runtime=${2:+$(realpath "$2")}
program=${3:+$(realpath "$3")}
here=$(cd "$(dirname "${BASH_SOURCE[0]}")" && pwd)
top=$(cd "$here/../.." && pwd)
# The most bytes of code and constants that the checker may add to a program.
most=61952
source "$here/../harness.sh"

# ---- images, by hand: the smallest one is 64 times ebreak in one sandbox at 01000000
smallest=$(tr -d ' \n' <"$here/../smallest.hex")
head=${smallest:0:72}
code=${smallest:72}
put() { printf '%b' "$(sed 's/../\\x&/g' <<<"$2")" >"$room/$1.image"; }
put first_format "$smallest"
put second_format "53464932${smallest:8}"
# sw x11, 0(x10); ebreak; addi x24, x24, 1
put two_findings "${head}2320b50073001000130c1c00${code:24}"
# the same; ebreak; and in the next bundle 16 bytes that do not decode
put three "${head}2320b50073001000130c1c007300100000000000000000000000000000000000${code:64}"
# c.addi x2, -16; c.ebreak
put stack "53464932${head:8}41110290${code:8}"
# two sandboxes: at 01000000 with two gates and three first data bytes, at 02000000 with neither
stub=73000000b3ff9001b3ef8f0167800f00
ebreaks() { printf '73001000%.0s' $(seq "$1"); }
numbers() { # in hexadecimal; each as the four bytes that it has in an image
    local n
    for n in "$@"; do printf '%02x%02x%02x%02x' $((0x$n & 255)) $((0x$n >> 8 & 255)) $((0x$n >> 16 & 255)) $((0x$n >> 24)); done
}
sum() { printf %x $((0x$1 + 0x$2)); }
two_at() { # where the code and the data of each begin
    printf 5346493202000000
    numbers "$1" 100 "$2" 100 "$(sum "$1" 20)" 2 3 "$1" 1 "$(sum "$1" 10)" 4
    printf %s "$stub$stub$(ebreaks 56)616263"
    numbers "$3" 200 "$4" 1000 "$(sum "$3" 1f0)" 0 0
    ebreaks 128
}
# one sandbox with a table of names: of its data, its code and a gate, and a claim, whose number is no address
named_at() { # where its code and its data begin
    printf 5346493201000000
    numbers "$1" 100 "$2" 100 "$1" 0 2d
    printf %s "$(ebreaks 64)61$(numbers "$(sum "$2" 4)")0164$(numbers "$(sum "$1" 20)")0166$(numbers "$1")0167"
    printf %s "$(numbers 1000010)052e726f6f6d$(numbers 1 c 10)5346494e"
}
put named "$(named_at 1000000 1800000)"
put two "$(two_at 1000000 1800000 2000000 2800000)"
put cut "${smallest:0:200}"
put head "${smallest:0:40}"
put empty ""
put other_format "53464933${smallest:8}"
put other_magic 5346493301000000
put no_sandbox "5346493100000000$(printf ' and more' | digits_of)"
put longer "${smallest}00"

# ---- what is wanted: image, room for findings, exit status, lines
cases=(
    "first_format|2|0|accepted sandboxes=1 bundles=16"
    "second_format|0|0|accepted sandboxes=1 bundles=16"
    "three|0|1|refused findings=3 first=V5 sandbox=0 at=01000000"
    "three|1|1|0 01000000 V5;refused findings=3 first=V5 sandbox=0 at=01000000"
    "three|2|1|0 01000000 V5;0 01000008 V4;refused findings=3 first=V5 sandbox=0 at=01000000"
    "three|3|1|0 01000000 V5;0 01000008 V4;0 01000010 V1;refused findings=3 first=V5 sandbox=0 at=01000000"
    "three|4|1|0 01000000 V5;0 01000008 V4;0 01000010 V1;refused findings=3 first=V5 sandbox=0 at=01000000"
    "three|9|1|0 01000000 V5;0 01000008 V4;0 01000010 V1;refused findings=3 first=V5 sandbox=0 at=01000000"
    "stack|1|1|0 01000000 V10;refused findings=1 first=V10 sandbox=0 at=01000000"
    "cut|2|2|layout fault 3"
    "empty|2|2|layout fault 3"
    "other_format|2|2|layout fault 1"
    "longer|2|2|layout fault 11"
)

run_cases() { # a host's name, and its command line
    local name=$1 one image capacity status lines found
    shift
    for one in "${cases[@]}"; do
        IFS='|' read -r image capacity status lines <<<"$one"
        found=$("$@" "$capacity" <"$room/$image.image" 2>&1)
        report "$name on $image with room for $capacity" "$status|$lines" "$?|${found//$'\n'/;}"
    done
}

pieces=(1 7 64 65536)
run_pieces() { # a host's name, and its command line: whatever the size of the pieces, the verdict alone
    local name=$1 one image capacity status lines size found before=
    shift
    for one in "${cases[@]}"; do
        IFS='|' read -r image capacity status lines <<<"$one"
        [ "$image" = "$before" ] && continue
        before=$image
        for size in "${pieces[@]}"; do
            found=$("$@" "$size" <"$room/$image.image" 2>&1)
            report "$name on $image, $size bytes at a time" "$status|${lines##*;}" "$?|$found"
        done
    done
}
# what is in them, for hosts that tell it: image, exit status, lines
smallest_part="sandbox 0 code 01000000 256 data 01800000 256 start 01000000 gates 0 init 0"
tellings=(
    "first_format|0|$smallest_part;bytes format 1 code 36 init 292"
    "second_format|0|$smallest_part;bytes format 2 code 36 init 292"
    "two|0|sandbox 0 code 01000000 256 data 01800000 256 start 01000020 gates 2 init 3;bytes format 2 code 52 init 308;\
gate 01000000 1;gate 01000010 4;\
sandbox 1 code 02000000 512 data 02800000 4096 start 020001f0 gates 0 init 0;bytes format 2 code 339 init 851"
    "three|1|"
    "cut|2|"
)
run_tellings() { # a host's name, and its command line
    local name=$1 one image status lines found
    shift
    for one in "${tellings[@]}"; do
        IFS='|' read -r image status lines <<<"$one"
        found=$("$@" <"$room/$image.image" 2>&1)
        report "$name tells of $image" "$status|$lines" "$?|${found//$'\n'/;}"
    done
}

# What a host is tried with that does all of it.
in_whole=$((${#cases[@]} + $(printf '%s\n' "${cases[@]%%|*}" | uniq | wc -l) * ${#pieces[@]} + ${#tellings[@]}))
run_whole() { # its name, and its command line
    run_cases "$@"
    run_pieces "$@" 0
    run_tellings "$@" parts
}
run_c() { # a machine's name, its library, and how its programs are run; the compiler with its words
    local on=$1 library=$2 runner=$3 name
    shift 3
    for name in host feed parts; do
        succeeds "$name.c$on" "$@" -std=c99 "${warnings[@]}" "$here/$name.c" "$library" -o "$room/$name$on"
    done
    run_cases "host.c$on" $runner "$room/host$on"
    run_pieces "feed.c$on" $runner "$room/feed$on"
    run_tellings "parts.c$on" $runner "$room/parts$on"
}
refuses_word() { # a program, a word of its command line that is none of its numbers
    found=$("$room/$1" "$2" <"$room/three.image"; echo "status $?")
    report "$1.c with '$2'" "status 6" "$found"
}

# each field of the verdict: image; status, layout fault, sandboxes, bundles and findings; sandbox, address and rule of the first
verdicts=(
    "first_format|0 0 1 16 0 0 0 0"
    "second_format|0 0 1 16 0 0 0 0"
    "two|0 0 2 48 0 0 0 0"
    "two_findings|1 0 0 0 2 0 0x01000000 5"
    "three|1 0 0 0 3 0 0x01000000 5"
    "stack|1 0 0 0 1 0 0x01000000 10"
    "other_format|2 1 0 0 0 0 0 0"
    "other_magic|2 1 0 0 0 0 0 0"
    "no_sandbox|2 2 0 0 0 0 0 0"
    "empty|2 3 0 0 0 0 0 0"
    "head|2 3 0 0 0 0 0 0"
    "cut|2 3 0 0 0 0 0 0"
    "longer|2 11 0 0 0 0 0 0"
)
run_verdicts() { # the name of a program that is given the fields
    local name=$1 one image fields found
    for one in "${verdicts[@]}"; do
        IFS='|' read -r image fields <<<"$one"
        found=$("$room/$name" $fields <"$room/$image.image" 2>&1)
        report_as $? "$name.c on $image" "$name: passed" "$found"
    done
}
run_valgrind() { # the names of a program and of an image
    local name=$1 image=$2 one found
    for one in "${verdicts[@]}"; do
        [ "${one%%|*}" = "$image" ] || continue
        found=$(valgrind -q --error-exitcode=9 --leak-check=full "$room/$name" ${one#*|} <"$room/$image.image" 2>&1)
        report_as $? "$name.c under valgrind on $image" "$name: passed" "$found"
    done
}

# ---- the library
if ! has gcc; then
    skip 1 "all hosts" "gcc isn't there"
    finish
fi
if [ -z "$library" ]; then
    library=$top/crates/sfi_c/out/libsfi_c.a
    succeeds "the library is built" env -C "$top/crates/sfi_c" rt lib
fi
if [ ! -f "$library" ]; then
    echo "there is no library $library"
    exit 1
fi
warnings=(-O2 -Wall -Wextra -pedantic -Werror -I"$top/crates/sfi_c/include")

# ---- C, and the header under C++
run_c "" "$library" "" gcc
for word in -1 "" 2x 8388609 99999999999999999999; do refuses_word host "$word"; done
for word in 0 -1 "" 2x 65537; do refuses_word feed "$word"; done
report "host.c without an image" "status 5" "$("$room/host" <&-; echo "status $?")"
# no allocator is linked: of C the library asks for no more than what a compiler copies and fills memory by
found=$(nm -u "$library" 2>"$room/log" | awk 'NF == 2 { print $2 }' | sort -u | tr '\n' ' ')
[ -n "$found" ] && ! grep -qvxE 'memcpy|memmove|memset' < <(tr ' ' '\n' <<<"${found% }")
report_as $? "what the library asks for" "no more than memcpy, memmove and memset" "$found$(cat "$room/log")"

# the checker in docs/EMBEDDING.md
sed -n '/^## From C, and/,/^### An image/p' "$top/docs/EMBEDDING.md" | sed -n '/^```c$/,/^```$/p' | sed '/^```/d' >"$room/checker.c"
succeeds "the checker of docs/EMBEDDING.md" gcc "${warnings[@]}" "$room/checker.c" "$library" -o "$room/checker"
found=$("$room/checker" <"$room/first_format.image"; echo "$?"; "$room/checker" <"$room/three.image"; echo "$?")
report "the checker of docs/EMBEDDING.md" $'accepted sandboxes=1 bundles=16\n0\n1' "$found"
succeeds edges.c gcc -std=c11 "${warnings[@]}" "$here/edges.c" "$library" -o "$room/edges"
run_verdicts edges
succeeds pieces.c gcc -std=c11 "${warnings[@]}" "$here/pieces.c" "$library" -o "$room/pieces"
run_verdicts pieces
succeeds apart.c gcc -std=c11 "${warnings[@]}" "$here/apart.c" "$library" -o "$room/apart"
report "apart.c" "status 0" "$("$room/apart"; echo "status $?")"

# a sandbox at another place: its number, code and data; the status
moves=(
    "0 3000000 3800000|0"
    "1 4000000 5000000|0"
    "0 1000000 1800000|0"  # its own
    "2 3000000 3800000|1"
    "0 3000010 3800000|3"  # no multiple of its size, of either
    "0 3000000 3800080|3"
    "1 4000100 5000000|3"
    "1 4000000 5000800|3"
    "0 3000000 1000|0"     # guard zones at both ends of the addresses
    "0 3000000 f00|3"
    "0 3000000 ffffef00|0"
    "0 3000000 fffff000|3"
    "0 ffffff00 3800000|0" # code there
    "0 0 3800000|0"
    "0 2000000 3800000|3"  # code, and at each end of the other's code
    "0 1ffff00 3800000|0"
    "0 2000100 3800000|3"
    "0 2000200 3800000|0"
    "0 3000000 2000000|3"  # data in it, and guard zones at each end of it
    "0 3000000 2001200|0"
    "0 3000000 2001100|3"
    "0 3000000 1ffef00|0"
    "0 3000000 1fff000|3"
    "0 27fef00 3800000|0"  # code at each end of the other's guard zones
    "0 27ff000 3800000|3"
    "0 2802000 3800000|0"
    "0 2801f00 3800000|3"
    "0 3000000 2803000|0"  # guard zones at each end of them
    "0 3000000 2802f00|3"
    "0 3000000 27fdf00|0"
    "0 3000000 27fe000|3"
    "0 37fef00 3800000|0"  # code at its own
    "0 37ff000 3800000|3"
    "0 3801100 3800000|0"
    "0 3801000 3800000|3"
)
succeeds move.c gcc -std=c11 "${warnings[@]}" "$here/move.c" "$library" -o "$room/move"
for one in "${moves[@]}"; do
    IFS='|' read -r words status <<<"$one"
    read -r number code data <<<"$words"
    case $status$number in
    00) wanted=$(two_at "$code" "$data" 2000000 2800000) ;;
    01) wanted=$(two_at 1000000 1800000 "$code" "$data") ;;
    *) wanted=$(two_at 1000000 1800000 2000000 2800000) ;;
    esac
    found=$("$room/move" $words <"$room/two.image" >"$room/moved"; echo $?)
    report "move.c to $words" "$status|$wanted" "$found|$(digits_of "$room/moved")"
done
for words in "0 3000000 3800000" "0 1000000 1800000" "0 1800000 1000000"; do
    read -r _ code data <<<"$words"
    found=$("$room/move" $words <"$room/named.image" >"$room/moved"; echo $?)
    report "move.c of names to $words" "0|$(named_at "$code" "$data")" "$found|$(digits_of "$room/moved")"
done
for image in cut empty longer other_format; do
    found=$("$room/move" 0 3000000 3800000 <"$room/$image.image" >"$room/moved"; echo $?)
    report "move.c on $image" "2|$(digits_of "$room/$image.image")" "$found|$(digits_of "$room/moved")"
done

# the bytes that the program builds at that place, where no instruction names an address
program=${program:-$top/crates/sfi/out/sfi}
cat >"$room/placeless.s" <<'END'
.sandbox 4096
.gate put 1
.gate quit 0
        li   a0, 2
        li   a1, 3
again:  add  a0, a0, a1
        addi a1, a1, -1
        bnez a1, again
        call quit
.data
        .word 1, 2, 3
END
for format in $formats; do
    if [ -x "$program" ]; then
        for place in 20500000:80000000 80110000:80400000; do
            in_format "$room/placeless.s" "$format" | "$program" build --at "$place" | tr -d ' \n' >"$room/built.$place"
        done
        put built "$(cat "$room/built.20500000:80000000")"
        found=$("$room/move" 0 80110000 80400000 <"$room/built.image" >"$room/moved"; echo $?)
        report "move.c and build in format $format" "0|$(cat "$room/built.80110000:80400000")" "$found|$(digits_of "$room/moved")"
    else
        skip 1 "move.c and build in format $format" "$program isn't there"
    fi
done

# ---- beside the library that loads
runtime=${runtime:-$top/crates/sfi_run/out/libsfi_run.a}
if [ -f "$runtime" ]; then
    succeeds load.c gcc -std=c11 "${warnings[@]}" -I"$top/crates/sfi_run/include" "$here/load.c" "$library" "$runtime" -o "$room/load"
    run_verdicts load
else
    skip $((1 + ${#verdicts[@]})) "load.c" "$runtime isn't there: \`rt lib\` in crates/sfi_run builds it"
fi

# ---- many images, in a pool of threads
succeeds many.c gcc -std=c11 -pthread "${warnings[@]}" "$here/many.c" "$library" -o "$room/many"
run_many() { # the words, and the names of images
    local words=$1
    shift
    found=$(cd "$room" && { [ $# = 0 ] || printf '%s.image\0' "$@"; } | ./many $words | tr '\t\0' '|;'; echo "${PIPESTATUS[1]}")
}
run_many 3 first_format three cut none second_format
wanted="0|accepted sandboxes=1 bundles=16|first_format.image;1|refused findings=3 first=V5 sandbox=0 at=01000000|three.image;"
wanted+="2|layout fault 3 Short|cut.image;5||none.image;0|accepted sandboxes=1 bundles=16|second_format.image;1"
report "many.c on five names" "$wanted" "$found"
for one in "1 0" "1024 0" "0 6" "1025 6" "2x 6"; do
    read -r words wanted <<<"$one"
    run_many "$words"
    report "many.c with $words threads, and no names" "$wanted" "$found"
done

if has valgrind; then
    run_valgrind edges three
    run_valgrind edges two
    run_valgrind pieces three
else
    skip 3 "edges.c and pieces.c under valgrind" "valgrind isn't there"
fi
if has g++; then
    succeeds "the header in C++98" g++ -std=c++98 "${warnings[@]}" -x c++ -fsyntax-only "$top/crates/sfi_c/include/sfi.h"
    succeeds "the header in C++17" g++ -std=c++17 "${warnings[@]}" -x c++ -fsyntax-only "$top/crates/sfi_c/include/sfi.h"
else
    skip 2 "the header in C++" "g++ isn't there"
fi

# ---- its size: that of the shared library less that of one without it
succeeds "the shared library" gcc -shared -o "$room/libsfi.so" -Wl,--whole-archive "$library" -Wl,--no-whole-archive
succeeds "a shared library without it" gcc -shared -o "$room/libnone.so" -x c /dev/null
total() { size "$1" | awk 'NR == 2 { print $1 + $2 + $3 }'; }
added=$(($(total "$room/libsfi.so") - $(total "$room/libnone.so")))
[ "$added" -gt 0 ] && [ "$added" -le "$most" ]
report_as $? "the size of the library" "at most $most bytes" "$added bytes"

# ---- Python and Rust
if has python3; then
    run_whole host.py python3 "$here/host.py" "$room/libsfi.so"
else
    skip "$in_whole" "host.py" "python3 isn't there"
fi
if has rustc; then
    succeeds host.rs rustc --edition 2021 -O -D warnings -o "$room/host_rs" "$here/host.rs" -C link-arg="$library"
    run_whole host.rs "$room/host_rs"
else
    skip $((1 + in_whole)) "host.rs" "rustc isn't there"
fi

# ---- aarch64 and WebAssembly: what tools/build_library.py builds beside the library of x86-64
arm=$(dirname "$library")/aarch64-unknown-linux-gnu/libsfi_c.a
module=$(dirname "$library")/wasm64-unknown-unknown/sfi.wasm
not_built="isn't there: tools/build_library.py builds it"
no_arm=$(lacking aarch64-linux-gnu-gcc qemu-aarch64)
if [ ! -f "$arm" ]; then
    skip $((3 + in_whole)) "the hosts in C on aarch64" "$arm $not_built"
elif [ -n "$no_arm" ]; then
    skip $((3 + in_whole)) "the hosts in C on aarch64" "$no_arm"
else
    run_c " on aarch64" "$arm" qemu-aarch64 aarch64-linux-gnu-gcc -static
fi
memory64=()
if has node && node --experimental-wasm-memory64 -e 0 >"$room/log" 2>&1; then
    memory64=(--experimental-wasm-memory64) # later versions of node have it without
fi
if [ ! -f "$module" ]; then
    skip "$in_whole" "host.mjs" "$module $not_built"
elif ! has node; then
    skip "$in_whole" "host.mjs" "node isn't there"
elif ! node "${memory64[@]}" -e 'process.exit(WebAssembly.validate(new Uint8Array(Buffer.from("0061736d010000000503010401", "hex"))) ? 0 : 1)'; then
    skip "$in_whole" "host.mjs" "this node has no memory of 64 bits"
else
    run_whole host.mjs node "${memory64[@]}" --no-warnings "$here/host.mjs" "$module"
fi

echo "the library has $added bytes"
finish
