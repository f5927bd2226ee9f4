#!/usr/bin/env bash
# Builds the hosts in C (also for aarch64), Python, Rust and, of four examples, JavaScript, and runs them: the console beside `sfi run` on all examples and the C programs, in
# each format and with turns of several lengths; a plug-in that is called as a function; and two that exchange words. Then
# hosts that try the header's sentences, one in C++, and the bindings' own tests. Says what it skips for want of a tool.
#
#     examples/run/test.sh [LIBRARY [PROGRAM [COMMANDS]]]    # LIBRARY is a libsfi_run.a that rt built, PROGRAM is the program sfi
#
# With COMMANDS, a libsfi_tool_c.a, all that the library is linked with runs by native code: it is libsfi_run_native, and the data of what is
# built here are whole pages.
set -uo pipefail
unset CDPATH
here=$(cd "$(dirname "${BASH_SOURCE[0]}")" && pwd)
top=$(cd "$here/../.." && pwd)
library=$(realpath "${1:-$top/crates/sfi_run/out/libsfi_run.a}")
SFI=$(realpath "${2:-$top/sfi}")
commands=${3:-}
data=256 # bytes, of most examples
plain=$SFI
export SFI
source "$here/../harness.sh"

needs "all hosts" gcc gcc
needs "all hosts" python3 python3
[ "$skipped" = 0 ] || finish
for file in "$library" "$SFI" $commands; do
    [ -f "$file" ] || { echo "$file isn't there" && exit 1; }
done
runtime=$room/lib/libsfi_run
if [ -z "$commands" ]; then
    succeeds "the libraries are linked" "$top/tools/libraries.py" sfi_run "$library" "$room/lib"
else
    [ "$(uname -sm)" = "Linux x86_64" ] || { skip 1 "native code" "this isn't Linux on x86-64" && finish; }
    succeeds "the libraries for native code are linked" "$top/tools/libraries.py" sfi_run_native "$library" "$commands" "$room/lib"
    runtime=$room/lib/libsfi_run_native
    data=4096
    export PLAIN_SFI=$SFI SFI=$top/examples/native/with-pages
fi

# ---- the hosts: a command line for each example of each language
declare -A hosts=()
examples=(add console function messages order tally words)
warnings=(-O2 -Wall -Wextra -pedantic -Werror -I"$top/crates/sfi_run/include" -I"$top/crates/sfi_c/include")

build_c() {
    local name
    for name in "${examples[@]}"; do
        succeeds "$name.c" gcc -std=c11 "${warnings[@]}" "$here/$name.c" "$runtime.a" -o "$room/$name"
        hosts[C $name]=$room/$name
    done
}

# The same hosts for aarch64, over the library that tools/build_library.py builds for it.
build_arm() {
    local arm name why
    [ -z "$commands" ] || return
    arm=$(dirname "$library")/aarch64-unknown-linux-gnu/libsfi_run.a
    why=$(lacking aarch64-linux-gnu-gcc qemu-aarch64)
    [ -z "$why" ] || { skip 1 "hosts in C on aarch64" "$why" && return; }
    [ -f "$arm" ] || { skip 1 "hosts in C on aarch64" "$arm isn't built (tools/build_library.py sfi_run)" && return; }
    for name in "${examples[@]}"; do
        succeeds "$name.c for aarch64" aarch64-linux-gnu-gcc -static -std=c11 "${warnings[@]}" "$here/$name.c" \
            "$top/crates/sfi_run/c/heap.c" "$arm" -o "$room/arm_$name"
        hosts[aarch64 $name]="qemu-aarch64 $room/arm_$name"
    done
}

build_rust() {
    has cargo || { skip 1 "hosts in Rust" "cargo isn't there" && return; }
    local name
    export CARGO_TARGET_DIR=$room/target CARGO_NET_OFFLINE=true
    succeeds "the examples in Rust" env -C "$top/bindings/rust" SFI_RUN_LIBRARY="$runtime.a" \
        RUSTFLAGS="-D warnings" cargo build -q --locked --release --examples
    for name in "${examples[@]}"; do
        hosts[Rust $name]=$room/target/release/examples/$name
    done
}

# The package is installed without the network, and then needs nothing of the repository.
install_python() {
    local name
    export PYTHONDONTWRITEBYTECODE=1
    export PYTHONPATH=$top/bindings/python SFI_RUN_LIBRARY=$runtime.so
    if [ -n "$commands" ]; then
        : # what is installed is tried by the other engine
    elif ! python3 -m pip --version >"$room/log" 2>&1; then
        skip 4 "pip install" "python3 has no pip"
    else
        succeeds "the checker is linked" "$top/tools/libraries.py" sfi_c "$top/crates/sfi_c/out/libsfi_c.a" "$room/lib"
        succeeds "pip install" env SFI_C_LIBRARY="$room/lib/libsfi_c.so" PIP_DISABLE_PIP_VERSION_CHECK=1 PIP_ROOT_USER_ACTION=ignore python3 -m pip install -q \
            --no-cache-dir --no-index --target "$room/site" "$top/bindings/python"
        unset SFI_RUN_LIBRARY
        PYTHONPATH=$room/site
        report "the package has its library" "$room/site/sfi_run/libsfi_run.so" \
            "$(python3 -c 'import sfi_run; print(sfi_run._library.places()[0])' 2>&1)"
        report "the package checks" "accepted sandboxes=1 bundles=16" \
            "$(cd "$room" && "$SFI" build --raw <"$top/examples/hi.s" >hi.image && site/bin/sfi-check hi.image 2>&1 | sed 's/ sha256=.*//')"
    fi
    for name in "${examples[@]}" values; do
        hosts[Python $name]="python3 $top/bindings/python/examples/$name.py"
    done
}

# In node, over the module that tools/build_node.py makes.
find_node() {
    local name
    [ -z "$commands" ] || return
    export SFI_RUN_MODULE=$top/bindings/node/sfi_run.wasm
    has node || { skip 2 "hosts in node, and the package's tests" "node isn't there" && return; }
    [ -f "$SFI_RUN_MODULE" ] ||
        { skip 2 "hosts in node, and the package's tests" "$SFI_RUN_MODULE isn't made (tools/build_node.py)" && return; }
    for name in add order tally values; do
        hosts[node $name]="node $top/bindings/node/examples/$name.mjs"
    done
}

languages() { # an example: the languages that have a host of it
    local language
    for language in C aarch64 Python Rust node; do
        [ -z "${hosts[$language $1]:-}" ] || echo "$language"
    done
}

# ---- the console, beside `sfi run`
image() { # a source, a format, a name: the image as text and as bytes
    in_format "$1" "$2" | "$SFI" build >"$room/$3.hex" && xxd -r -p "$room/$3.hex" >"$room/$3.image"
}

# Hosts in C have turns of each length, those in other languages of one of them, in turns from one call of this to the next.
beside=0
beside_run() { # what is tried, the image's name, the input, and the lengths: rounds:quantum
    local what=$1 name=$2 input=$3 length language wanted found number
    shift 3
    number=$((beside++))
    for length; do
        wanted=$("$SFI" run --rounds "${length%:*}" --quantum "${length#*:}" --input "$input" <"$room/$name.hex")
        number=$((number + 1))
        for language in $(languages console); do
            [ "$language" = C ] || has_turn "$number" $# || continue
            found=$(${hosts[$language console]} "$room/$name.image" "${length%:*}" "${length#*:}" "$input" 2>&1)
            report "$what, ${length%:*} turns of ${length#*:} steps, in $language" "$wanted" "$found"
        done
    done
}

# More input than an option of `sfi run` can have.
long_input() {
    local wanted
    [ -n "${hosts[Python console]:-}" ] || { skip 1 "a long input" "there is no host in Python" && return; }
    image "$here/../echo.s" 2 echo
    wanted=$(yes 'a longer input' | head -c 300000 | tr a-z A-Z | digits_of)
    report "a long input, in Python" "$wanted" "$(yes 'a longer input' | head -c 300000 |
        ${hosts[Python console]} "$room/echo.image" 10000 1000000 - | sed 's/.*out=//')"
}

examples_beside_run() {
    local source format name
    for format in $formats; do
        for source in "$here"/../*.s "$here"/*.s; do
            name=$(basename "$source" .s)
            [ "$format" != 1 ] || ! grep -q '^\.export' "$source" || continue # which the first format doesn't have
            image "$source" "$format" "$name" || report "$name is built in format $format" image none
            beside_run "$name, format $format" "$name" 48656c6c6f 1:1000 7:13 40:1 3:97 200:1000
        done
    done
}

programs_beside_run() {
    local name format input
    input=$(head -c 3000 "$here/../c/inputs/prose" | digits_of)
    while read -r name format <&3; do
        c_image "$name" "$format" "$room/$name.hex" || { skip 1 "$name.c, format $format" "$(lacking riscv64-unknown-elf-gcc)" && continue; }
        xxd -r -p "$room/$name.hex" >"$room/$name.image"
        beside_run "$name.c, format $format" "$name" "$input" 1:100000 300:7 50:9999 100:1000000
    done 3< <(due 3 base64 crc32 hash json sort stack)
}

# ---- the other two examples, by hand
says() { # what is tried, the example, what is wanted, and its words
    local what=$1 example=$2 wanted=$3 language found
    shift 3
    for language in $(languages "$example"); do
        found=$(${hosts[$language $example]} "$@" 2>"$room/errors"; echo "status $?")
        report "$what, in $language" "$wanted" "$found"
    done
}

plug_ins() {
    local far
    far=$(printf 'a%.0s' $(seq $((data + 1)))) # one byte more than the data
    image "$here/turn.s" 2 turn
    says "a function" function "NI-GULP 7
24 LEVEL 8
X 1
status 0" "$room/turn.image" plug-in "Level 42" x
    says "a function on a text that is too long" function "AB 2
status 1" "$room/turn.image" ba "$far"
    local format
    for format in 2 words; do
        image "$here/add.s" "$format" add
        says "a function of a source text by its name, format $format" add "5
status 0" "$room/add.image"
    done
    image "$here/tally.s" 2 tally
    says "a plug-in that begins anew" tally "105
112
103
status 0" "$room/tally.image" 5 7 new 3
    # 7, 11 and 13, and their squares; the steps of what is cut off are those of `sfi run`
    image "$here/squares.s" 2 squares
    says "two plug-ins" messages "0 -> 1: 7
1 -> 0: 49
0 -> 1: 11
1 -> 0: 121
0 -> 1: 13
1 -> 0: 169
0 exited with 339
1 is cut off after $(steps_of 1 4) steps
status 0" "$room/squares.image"
    says "two plug-ins that get two turns" messages "0 -> 1: 7
1 -> 0: 49
0 -> 1: 11
1 -> 0: 121
0 is cut off after $(steps_of 0 2) steps
1 is cut off after $(steps_of 1 2) steps
status 0" "$room/squares.image" 2
    # by C: 10 for a word and 1 for a letter; the steps are those of C, where main, two calls and 10000 more were done
    image "$here/words.s" 2 words
    local steps
    steps=$("$room/words" "$room/words.image" "a plug-in of mine" x | sed -n 's/cut off after \([0-9]*\) steps/\1/p')
    says "a plug-in in C" words "A Plug-In Of Mine 63
X 11
cut off after $steps steps
status 0" "$room/words.image" "a plug-in of mine" x
    says "a plug-in in C that has no room for a text" words "status 1" "$room/words.image" "$far"
    compiled_anew
}

# The plug-in in C, where a compiler is there: another compiler makes other code, which does the same.
compiled_anew() {
    local why floats
    why=$(lacking riscv64-unknown-elf-gcc) floats=$(lacking "floating point")
    [ -z "$why" ] || { skip 10 "words_plugin.c, and functions by their names" "$why" && return; }
    "$top/tools/sfi-cc" --program "$SFI" -Wall -Werror --gate price=2 -o "$room/anew.image" "$here/words_plugin.c" 2>"$room/log"
    report "words_plugin.c is compiled" "Two Words 28" "$("$room/words" "$room/anew.image" "two words" 2>&1 | head -n 1)"
    printf 'int add(int a, int b) { return a + b; }\n' >"$room/add.c"
    local format
    for format in $(formats_due); do
        "$top/tools/sfi-cc" --program "$SFI" --format "$format" --export add "$room/add.c" -o "$room/add.image" 2>"$room/log"
        says "a function by its name, format $format" add "5
status 0" "$room/add.image"
        "$top/tools/sfi-cc" --program "$SFI" --format "$format" -Wall -Werror "$here/order_plugin.c" -o "$room/order.image" 2>"$room/log"
        says "calls both ways, by names that the source marks, format $format" order "61 42 93 5 17 28
61 42 93 5 17 28
status 0" "$room/order.image"
        [ -z "$floats" ] || { skip 1 "values by signatures, format $format" "$floats" && continue; }
        "$top/tools/sfi-cc" --program "$SFI" --format "$format" -Wall -Werror "$here/values_plugin.c" -o "$room/values.image" 2>"$room/log"
        says "values by signatures, format $format" values "noted häuser
noted 
äuser None
desserts 200 -30000000000 0.25 56
refused product (il)l
refused opposite (c)y
status 0" "$room/values.image"
    done
}

steps_of() { # a sandbox of squares.s, and how many turns of 100 steps each gets: a number comes back in the next one
    "$SFI" run --rounds "$2" --quantum 100 <"$room/squares.hex" | sed -n "s/sandbox=$1 .* steps=\([0-9]*\) .*/\1/p"
}

no_images() {
    local example language
    head -c 100 "$room/turn.image" >"$room/cut.image"
    for example in "${examples[@]}"; do
        for language in $(languages "$example"); do
            found=$(${hosts[$language $example]} "$room/cut.image" 2>"$room/errors")
            [ $? != 0 ] && [ -z "$found" ] && [ -s "$room/errors" ]
            report_as $? "$example without an image, in $language" "a status but 0, and a reason" "$found"
        done
    done
}

# ---- the hosts of docs/EMBEDDING.md, as they stand there
block() { # a heading, and the words after ``` of a block below it: the first one's lines
    sed -n "/^##* $1\$/,/^##* /p" "$top/docs/EMBEDDING.md" | awk -v opened="\`\`\`$2" '/^```/ { if (on) exit; on = $0 == opened; next } on'
}

documented() {
    local found why place=$room/document
    why=$(lacking riscv64-unknown-elf-gcc)
    [ -z "$why" ] || { skip 3 "the hosts of EMBEDDING.md" "$why" && return; }
    mkdir -p "$place/src"
    block "A host from nothing" c >"$place/plugin.c"
    succeeds "the plug-in of EMBEDDING.md" env -C "$place" "$top/tools/sfi-cc" --program "$SFI" --export add --import print \
        plugin.c -o plugin.image
    block "The host in C" c >"$place/host.c"
    found=$(cd "$place" && gcc "${warnings[@]}" host.c "$runtime.a" -o host 2>&1 && ./host)
    report "the host in C of EMBEDDING.md" "hello 42" "$found"
    block "Running from Python" python >"$place/host.py"
    report "the host in Python of EMBEDDING.md" "hello 42" "$(cd "$place" && python3 host.py 2>&1)"
    has cargo || { skip 1 "the host in Rust of EMBEDDING.md" "cargo isn't there" && return; }
    block "Running from Rust" rust >"$place/src/main.rs"
    printf '[package]\nname = "host"\nversion = "0.1.0"\nedition = "2021"\n[dependencies]\nsuygapid = { path = "%s" }\n' \
        "$top/bindings/rust" >"$place/Cargo.toml"
    found=$(cd "$place" && SFI_RUN_LIBRARY=$runtime.a cargo run -q 2>&1)
    report "the host in Rust of EMBEDDING.md" "hello 42" "$found"
}

# ---- what else is tried
memory() {
    has valgrind || { skip 4 "the hosts in C under valgrind" "valgrind isn't there" && return; }
    local words found
    for words in "console $room/primes.image 40 97" "function $room/turn.image plug-in" "messages $room/squares.image" "words $room/words.image text"; do
        found=$(cd "$room" && valgrind -q --error-exitcode=9 --leak-check=full --show-leak-kinds=all ./$words 2>&1 >"$room/said")
        report "valgrind $words" "" "$found"
    done
}

# ---- what the header says: of single calls, of memory, of threads, and of C++
says_so() { # what is tried, what is wanted, and a command
    local what=$1 wanted=$2
    shift 2
    report "$what" "$wanted" "$("$@" 2>&1)"
}

# A snapshot that C took is restored in Python, and in node, and taken again.
in_python='import sys
from sfi_run import snapshots
image, kept = (open(path, "rb").read() for path in sys.argv[1:])
print("the same" if snapshots.take(snapshots.restore(image, kept), image) == kept else "another")'
in_node='import { readFileSync } from "node:fs";
const { snapshots } = await import(process.argv[1]);
const [image, kept] = process.argv.slice(2).map((path) => readFileSync(path));
console.log(snapshots.take(await snapshots.restore(image, kept), image).equals(kept) ? "the same" : "another");'

header_in_c() {
    local checked=(gcc -std=c11 "${warnings[@]}" -D_POSIX_C_SOURCE=200809L -pthread)
    local wrapped=-Wl,--wrap=malloc,--wrap=realloc,--wrap=free images=() format
    succeeds "calls.c" "${checked[@]}" "$here/calls.c" "$runtime.a" -o "$room/calls"
    succeeds "failed_calls.c" "${checked[@]}" "$here/failed_calls.c" "$runtime.a" -o "$room/failed_calls"
    succeeds "limit.c" "${checked[@]}" "$here/limit.c" "$runtime.a" -o "$room/limit"
    succeeds "limit.c for ThreadSanitizer" "${checked[@]}" -fsanitize=thread "$here/limit.c" "$runtime.a" -o "$room/limit_watched"
    succeeds "snapshot.c" "${checked[@]}" "$here/snapshot.c" "$runtime.a" -o "$room/snapshot"
    succeeds "names.c" "${checked[@]}" "$here/names.c" "$runtime.a" -o "$room/names"
    says_so "names and signatures" "all is so" "$room/names"
    succeeds "the header of limits in C" "${checked[@]}" -Wconversion -x c -fsyntax-only "$top/crates/sfi_run/include/sfi_run_limit.h"
    succeeds "the headers in C99" gcc -std=c99 "${warnings[@]}" -Wconversion -x c -fsyntax-only \
        "$top/crates/sfi_run/include"/sfi_run_{serve,snapshot,sizes}.h
    succeeds "sizes.c" "${checked[@]}" "$here/sizes.c" -o "$room/sizes"
    says_so "a host's own limits" "all is so" "$room/sizes"
    succeeds "threads.c" "${checked[@]}" "$here/threads.c" "$runtime.a" -o "$room/threads"
    succeeds "memory.c" "${checked[@]}" "$here/memory.c" "$runtime.a" $wrapped -o "$room/memory"
    succeeds "modules.c" "${checked[@]}" "$here/modules.c" "$runtime.a" $wrapped -o "$room/modules"
    printf '%s\n' '.sandbox 256' '.gate post 4' '.gate exit 0' 'li a0, 5' 'la a1, sum' 'call post' 'on: j on' \
        'sum: mv t0, a0' 'add a0, a0, a1' 'mv a1, t0' ret >"$room/on.s"
    for format in $formats; do
        image "$room/on.s" "$format" on
        says_so "single calls, format $format" "all is so" "$room/calls" "$room/on.image"
        image "$here/failed_calls.s" "$format" failed_calls
        says_so "calls that fail, format $format" "all is so" "$room/failed_calls" "$room/failed_calls.image"
        says_so "runs that are cut short, format $format" "all is so" "$room/limit" "$room/failed_calls.image" \
            "$room"/{on,turn,squares,words}.image
        ! is_due "$format" 0 2 ||
            says_so "ends by other threads, under ThreadSanitizer, format $format" "all is so" "$room/limit_watched" "$room/failed_calls.image"
        image "$here/squares.s" "$format" kept
        says_so "snapshots, format $format" "all is so" "$room/snapshot" "$room/kept.image" \
            "$(sha256sum <"$room/kept.image" | cut -d ' ' -f 1)" "$room/kept.snapshot"
        says_so "a snapshot from C in Python, format $format" "the same" python3 -c "$in_python" "$room/kept.image" "$room/kept.snapshot"
        [ -z "${hosts[node add]:-}" ] || says_so "a snapshot from C in node, format $format" "the same" \
            node --input-type=module -e "$in_node" "$top/bindings/node/index.mjs" "$room/kept.image" "$room/kept.snapshot"
        says_so "four threads and one world, format $format" "10000 steps" "$room/threads" "$room/on.image" 10000
        says_so "four threads and worlds of one module, format $format" "40000 steps" "$room/modules" "$room/on.image" 10000
        image "$here/../hi.s" "$format" "hi_$format"
        images+=("$room/hi_$format.image")
    done
    # its first store no longer goes to the data; the other is cut short
    xxd -r -p <<<"$("$SFI" build <"$here/../hi.s" | sed s/b37fb501/13000000/)" >"$room/broken.image"
    head -c 100 "$room/turn.image" >"$room/short.image"
    images+=("$room/squares.image" "$room/words.image" "$room/broken.image" "$room/short.image")
    says_so "memory: each allocation refused, and random sessions" "5 loaded, 1 refused, 1 no image" \
        "$room/memory" "${images[@]}"
    report "a reason, where rules are broken" "$room/broken.image breaks V5 in sandbox 0 at $(broken_at)" \
        "$("$room/console" "$room/broken.image" 2>&1)"
    report "a reason, where it is no image" "$room/short.image is no image: layout fault 3" \
        "$("$room/console" "$room/short.image" 2>&1)"
    has valgrind || { skip 2 "calls.c and threads.c under valgrind" "valgrind isn't there" && return; }
    says_so "calls.c, under valgrind" "all is so" valgrind -q --error-exitcode=9 --leak-check=full --show-leak-kinds=all \
        "$room/calls" "$room/on.image"
    says_so "threads.c, under helgrind" "500 steps" valgrind -q --error-exitcode=9 --tool=helgrind "$room/threads" \
        "$room/on.image" 500
}

# Where `sfi check --report` says that the rule is broken.
broken_at() {
    "$SFI" check --report <"$room/broken.image" | sed -n 's/.*at=\([0-9a-f]*\).*/\1/p' | head -n 1
}

header_in_cpp() {
    has g++ || { skip 6 "the headers in C++" "g++ isn't there" && return; }
    local standard
    for standard in c++98 c++17; do
        succeeds "the headers in $standard" g++ -std=$standard "${warnings[@]}" -Wconversion -x c++ -fsyntax-only \
            "$top/crates/sfi_run/include"/sfi_run_{serve,snapshot,sizes}.h
    done
    succeeds "the header of limits in C++" g++ -std=c++11 "${warnings[@]}" -Wconversion -x c++ -fsyntax-only \
        "$top/crates/sfi_run/include/sfi_run_limit.h"
    succeeds "world.cc" g++ -std=c++17 "${warnings[@]}" "$here/world.cc" "$runtime.a" -o "$room/world"
    has xxd || return
    says_so "a host in C++" "Hi kind 3 number 105" "$room/world" "$room/hi_2.image"
    says_so "a host in C++ on what is refused" "status 1, rule 5, layout fault 0" "$room/world" "$room/broken.image"
}

own_tests() { # a language, and a command whose last line counts its tests
    local language=$1 last
    shift
    "$@" >"$room/log" 2>&1
    head -n -1 "$room/log" | grep -v '^OK$\|^\.*$\|^Ran\|^---'
    last=$(tail -n 1 "$room/log")
    add_counts "$last" || report "the tests in $language" "N passed, M failed" "$last"
}

# What `npm pack` packs of the package for node, once its module is made: here a file that stands for it.
packed_for_node() {
    local place=$room/packed
    [ -z "$commands" ] || return
    has npm || { skip 2 "npm pack" "npm isn't there" && return; }
    mkdir -p "$place" && cp "$top/bindings/node"/*.* "$place" && rm -f "$place/sfi_run.wasm"
    report "npm pack without the module" "sfi_run.wasm is not made: tools/build_node.py of the repository makes it" \
        "$(cd "$place" && npm pack --offline 2>&1 | grep '^sfi_run')"
    touch "$place/sfi_run.wasm"
    report "npm pack" "$(cd "$place" && ls *.md *.mjs *.mts *.json *.wasm | grep -v '^test' | sort)" \
        "$(cd "$place" && npm pack --offline --silent >/dev/null 2>&1; tar tzf suygapid-*.tgz | sed 's,^package/,,' | sort)"
}

bindings() {
    local kind
    own_tests Python env SFI="$plain" SFI_RUN_LIBRARY="$runtime.so" "$top/tools/unit_tests.py" "$top/bindings/python/tests"
    [ -z "${hosts[node add]:-}" ] || own_tests node node "$top/bindings/node/test.mjs"
    has cargo || return
    for kind in "" --release; do # arithmetic that overflows panics in the first alone; each engine has one of them
        [ -z "$commands" ]
        has_turn $((${#kind} + $?)) 2 || continue
        succeeds "cargo test $kind" env -C "$top/bindings/rust" SFI="$plain" SFI_RUN_LIBRARY="$runtime.a" cargo test -q --locked $kind
    done
    [ ! -f "$room/kept.snapshot" ] ||
        succeeds "a snapshot from C in Rust" env -C "$top/bindings/rust" SFI_RUN_LIBRARY="$runtime.a" \
            SFI_IMAGE="$room/kept.image" SFI_SNAPSHOT="$room/kept.snapshot" cargo test -q --locked --test snapshots -- --ignored
}

build_c
build_arm
install_python
build_rust
find_node
if has xxd; then
    examples_beside_run
    programs_beside_run
    long_input
    plug_ins
    no_images
    documented
    memory
    header_in_c
else
    skip 1 "all runs" "xxd isn't there"
fi
header_in_cpp
packed_for_node
bindings
finish
