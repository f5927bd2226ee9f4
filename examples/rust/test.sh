#!/usr/bin/env bash
# Compiles Rust programs for sandboxes in the usual format, one in each other one, and compares what they do with the same programs
# compiled natively.
#
#     examples/rust/test.sh [SFI]      # SFI is the program; ./sfi at the top if absent
#
# CARGO is the cargo for programs of several crates, which lie in the folder VENDORED: the one beside rustc, and Debian's
# if absent.
set -uo pipefail
unset CDPATH
here=$(cd "$(dirname "${BASH_SOURCE[0]}")" && pwd)
sfi=$(realpath "${1:-$here/../../sfi}")
export SFI=$sfi RUST_BACKTRACE=0
cd "$here" || exit 1
source ../harness.sh

silently() { # what is tried; a command, which has to end in 0 and print nothing, such as a warning
    local what=$1
    shift
    "$@" >"$room/log" 2>&1 && [ ! -s "$room/log" ]
    report_as $? "$what" "nothing by $*" "$(tail -n 30 "$room/log")"
}

# What programs stand on, by any compiler that is there, for this machine.
try_guest() {
    local rustc=${RUSTC:-rustc}
    has "$rustc" || { skip 1 "sfi_guest for this machine" "$rustc isn't there (Debian's package rustc)" && return; }
    silently "sfi_guest for this machine" "$rustc" --edition=2021 --crate-type=rlib --emit=metadata --out-dir="$room" sfi_guest/lib.rs
}

inputs_of() {
    case $1 in
    words) echo empty prose json-tree ;;
    median) echo empty prose bzip2.txt ;;
    panics) echo i o w ;;
    calls) echo empty ;;
    esac
}

input_of() { # an input's name, or its one letter
    case $1 in
    ?) printf %s "$1" ;;
    bzip2.txt) ../c/inputs.py prose | head -c 1999 && ../c/inputs.py json-tree ;;
    *) ../c/inputs.py "$1" ;;
    esac
}

# The exit code and the output of a native program, in the words of `sfi run`. Its panics go to another stream.
native_line() { # program, input
    local status
    input_of "$2" | "$room/$1" >"$room/output" 2>"$room/messages"
    status=${PIPESTATUS[1]}
    sed -n "s/^thread .* panicked at/panicked at/p" "$room/messages" >>"$room/output"
    [ "$status" != 134 ] && echo "exit=$status out=$(digits_of "$room/output")" || echo "trap=Break out=$(digits_of "$room/output")"
}

line_of() { # image, input
    "$sfi" run --rounds 1000 --quantum 1000000 --input "$(input_of "$2" | digits_of)" <"$1" |
        sed 's/^sandbox=0 //; s/ steps=[0-9]*//; s/ at=[0-9a-f]*//'
}

image_of() { # program, format; fails where sfi-cc does. What `calls` takes in all is more than this heap
    local room_of=()
    [ "$1" != calls ] || room_of=(--heap 98304)
    ../../tools/sfi-cc --program "$sfi" --format "$2" "${room_of[@]}" -o "$room/$1.image" "$room/$1.s" 2>"$room/messages"
}

of_calls() { # program, format; what sfi-cc says of it
    [ "$1 $2" = "calls 1" ] && echo "more than format 1 has room for" || echo "an image"
}

try_program() { # program, format
    local input
    if ! image_of "$1" "$2"; then
        report "$1, format $2: compiled" "$(of_calls "$1" "$2")" "$(grep -o "more than format 1 .*\|.*error.*" "$room/messages")"
        return
    fi
    for input in $(inputs_of "$1"); do
        report "$1, format $2, $input" "$(native_line "$1" "$input")" "$(line_of "$room/$1.image" "$input")"
    done
}

# A panic without room for memory, where a native program has it.
try_memory() {
    local line
    line=$(line_of "$room/panics.image" m)
    report "no room for memory" "trap=Break panicked at 'no room for 16777216 bytes'" \
        "${line% out=*} $(xxd -r -p <<<"${line#*out=}" | sed -n 's/, .*//; 2p')"
}

# The line of a trap by debug information, and the whole way.
try_line() {
    ./sfi-rustc --program "$sfi" -g -o "$room/debugged.elf" programs/panics.rs
    report "where a panic traps" 1 "$(riscv64-unknown-elf-objdump -dl "$room/debugged.elf" | grep -B2 ebreak | grep -c panicking.rs)"
}

vendored=${VENDORED:-/usr/share/cargo/registry}
package=$room/package/crates

missing_for_crates() { # cargo; what isn't there
    compgen -G "$vendored/miniz_oxide-*" >"$room/which" && compgen -G "$vendored/serde_json-*" >"$room/which" ||
        echo "the crates miniz_oxide and serde_json aren't in $vendored (Debian's librust-miniz-oxide-dev, librust-serde-json-dev)"
    has "$1" || echo "$1 isn't there (Debian's package cargo)"
}

# The package of crates/ in a folder of its own, whose cargo finds other crates in $vendored.
make_package() {
    mkdir -p "$room/cargo" "$room/package" && cp -r crates sfi_guest "$room/package"
    printf '[source.crates-io]\nreplace-with = "vendored"\n[source.vendored]\ndirectory = "%s"\n' "$vendored" >"$room/cargo/config.toml"
    (cd "$package" && "$here/sfi-rustc" --init --program "$sfi" --heap 800000 --stack 98304) >"$room/added"
}

build_crates() { # cargo; its options
    (cd "$package" && CARGO_HOME=$room/cargo "$1" build --offline --release --quiet "${@:2}")
}

try_crate() { # program, machine, input
    cp "$package/target/$2/release/$1" "$room/$1"
    report "$1 by cargo, $3" "$(native_line "$1" "$3")" "$(line_of "$package/target/riscv32imc-unknown-none-elf/release/$1" "$3")"
}

try_crates() {
    local rustc cargo machine why input
    make_package
    rustc=$(sed -n 's/^rustc = "\(.*\)"$/\1/p' "$package/.cargo/config.toml")
    cargo=${CARGO:-${rustc%/*}/cargo}
    why=$(missing_for_crates "$cargo" | head -n 1)
    if [ -n "$why" ]; then skip 1 "programs of several crates" "$why" && return; fi
    machine=$("$rustc" -vV | sed -n 's/^host: //p')
    silently "crates by cargo" build_crates "$cargo"
    silently "crates by cargo, natively" build_crates "$cargo" --target "$machine"
    for input in empty prose; do try_crate packing "$machine" "$input"; done
    for input in json-tree json-unfinished json-deep; do try_crate values "$machine" "$input"; done
}

try_guest
why=$(./sfi-rustc --missing 2>&1)
why=${why:-$(lacking riscv64-unknown-elf-as riscv64-unknown-elf-ld)}
if [ -n "$why" ]; then
    skip 1 "Rust programs" "$why"
    finish
fi
for program in words median panics calls; do
    silently "$program natively" ./sfi-rustc --native "$room/$program" "programs/$program.rs"
    silently "$program as assembly" ./sfi-rustc -S -o "$room/$program.s" "programs/$program.rs"
done
while read -r program format <&3; do try_program "$program" "$format"; done 3< <(due 4 words median panics calls)
try_memory
try_line
try_crates
finish
