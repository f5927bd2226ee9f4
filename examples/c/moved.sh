#!/usr/bin/env bash
# Compiles the C examples by `sfi-cc --movable` in the usual format, and by turns in others, moves each image to two other places, and
# compares what it does there, on the inputs of expected.txt, with what the native program did, and addresses.c with an image that is built there.
#
#     examples/c/moved.sh [--all] [SFI]   # SFI is the program; ./sfi at the top if absent. Without --all: some of them
set -uo pipefail
unset CDPATH
here=$(cd "$(dirname "${BASH_SOURCE[0]}")" && pwd)
wanted_programs="sort json regex"
[ "${1:-}" != --all ] || { wanted_programs= EACH_FORMAT=1 && shift; }
sfi=$(realpath "${1:-$here/../../sfi}")
export SFI=$sfi
cd "$here" || exit 1
source ../harness.sh
tools=$(realpath ../../tools)
export tools programs room

# First the usual place. Code and data go different ways, and the last place has the data below the code.
places_of() { # format
    case "$1" in
    single) echo "01800000:80000000 09100000:02000000 fff00000:00100000" ;;
    *) echo "01000000:01800000 09100000:02400000 fff00000:00100000" ;;
    esac
}

compile() { # program, format; makes an image that can be moved
    "$tools/sfi-cc" --program "$SFI" --movable --format "$2" -O2 -fno-tree-loop-distribute-patterns -o "$room/$1.$2" "$programs/$1.c"
}

move() { # an image, a place, the file for the moved one
    "$sfi" move --at "$2" <"$1" >"$3"
}

run_of() { # image, input in digits; what it does, without the steps
    "$sfi" run --rounds 10000 --quantum 1000000 --input "$2" <"$1" | sed 's/^sandbox=0 //; s/ steps=[0-9]*//'
}

try_place() { # program, format, place
    local name input wanted image="$room/$1.$2" what="$1, format $2, at $3" places
    places=$(places_of "$2")
    if [ "$3" != "${places%% *}" ]; then
        move "$image" "$3" "$image.moved"
        image=$image.moved
    fi
    report "$what: check" accepted "$("$sfi" check <"$image" | cut -d' ' -f1)"
    while read -r name input wanted; do
        [ "$name" != "$1" ] || report "$what, $input" "$wanted" "$(run_of "$image" "$(./inputs.py "$input" | digits_of)")"
    done <expected.txt
}

try_program() { # program, format
    local place
    if [ ! -s "$room/$1.$2" ]; then
        report "$1, format $2: compiled" image "$(cat "$room/messages")"
        return
    fi
    for place in $(places_of "$2"); do
        try_place "$1" "$2" "$place"
    done
}

# Each address that a moved program holds is the one that it has where it is built there.
try_addresses() { # format, compiler; options of sfi-cc
    local format=$1 place image="$room/addresses" places
    places=$(places_of "$1")
    shift
    "$tools/sfi-cc" --program "$sfi" --movable --format "$format" "$@" -o "$image" elf/addresses.c elf/elsewhere.c
    for place in ${places#* }; do
        "$tools/sfi-cc" --program "$sfi" --at "$place" --movable --format "$format" "$@" -o "$image.built" elf/addresses.c elf/elsewhere.c
        move "$image" "$place" "$image.moved"
        report "addresses, format $format, at $place $*" "$(run_of "$image.built" "")" "$(run_of "$image.moved" "")"
    done
    "$tools/sfi-cc" --program "$sfi" --movable --format "$format" "$@" -o "$image" elf/labels.c
    move "$image" "$place" "$image.moved"
    report "data of addresses alone, format $format $*" "exit=4 out=" "$(run_of "$image.moved" "")"
}

# Those that it puts at the place where it was linked.
try_putting() { # format
    local image="$room/addresses"
    "$tools/sfi-cc" --program "$sfi" --movable --format "$1" -O2 -o "$image" elf/addresses.c elf/elsewhere.c
    report "addresses, format $1: put" 1 "$(run_of "$image" "" | grep -c "^exit=0 out=[0-9a-f]\{4992\}$")"
}

# What can't be moved is refused.
try_refusals() {
    local image="$room/image" told="$room/told"
    refusal() { "$@" >"$image" 2>"$told" && echo "status 0"; head -n 1 "$told"; }
    "$tools/sfi-cc" --program "$sfi" -c -o "$room/fixed.o" elf/addresses.c
    report "an object that can't be moved" "can't be moved: compile all of it with --movable" \
        "$(refusal "$tools/sfi-cc" --program "$sfi" --movable elf/elsewhere.c "$room/fixed.o" | grep -o "can't be moved.*")"
    local format at
    while read -r format at; do # in words and single the data begin with room for a step of a pointer
        report "an address at an odd place, format $format" \
            "sfi-cc: the program: odd has an address at $at, which is no multiple of 4, so it can't be moved" \
            "$(refusal "$tools/sfi-cc" --program "$sfi" --format "$format" --movable elf/odd.c)"
    done < <(printf '%s\n' "single 0x80000041" "words 0x1800041" "2 0x1800001")
    "$tools/sfi-cc" --program "$sfi" -o "$room/fixed.elf" elf/odd.c
    report "a program that can't be moved" "sfi-image: $room/fixed.elf can't be moved: link it with --movable, or with --at" \
        "$(refusal "$tools/sfi-image" --at 02000000:08000000 "$room/fixed.elf")"
    "$tools/sfi-cc" --program "$sfi" --movable -o "$room/movable.elf" elf/elsewhere.c elf/addresses.c
    report "a place that the usual format has not" \
        "sfi-image: $room/movable.elf: the data lie at 0x2800000, which is more than one bit: compile it with --format words" \
        "$(refusal "$tools/sfi-image" --at 02000000:02800000 "$room/movable.elf")"
}

# A source text: what is moved to a place is what is built there.
try_text() { # format
    local place image="$room/text"
    cat >"$image.s" <<END
.format $1
.sandbox 256
.movable
.gate put 1
.gate quit 0
        la   a0, text
        li   a1, 3
        call put
        la   t0, last
        jalr ra, 0(t0)
        la   t0, quit
        jr   t0
last:   la   t1, text
        lbu  a0, 2(t1)
        la   sp, text
        sb   a0, 1(sp)
        ret
.data
text:   .byte 72, 105, 33
END
    "$sfi" build <"$image.s" >"$image"
    for place in $(places_of "$1"); do
        move "$image" "$place" "$image.moved"
        report "a text, format $1, at $place" "$("$sfi" build --at "$place" <"$image.s")" "$(cat "$image.moved")"
        report "a text, format $1, at $place: run" "exit=33 out=486921" "$(run_of "$image.moved" "")"
        report "a text, format $1, at $place: check" accepted "$("$sfi" check <"$image.moved" | cut -d' ' -f1)"
    done
}

for format in 2 words single; do try_text "$format"; done
why=$(lacking riscv64-unknown-elf-gcc)
if [ -n "$why" ]; then
    skip 1 "images that are moved" "$why"
    finish
fi
wanted_programs=${wanted_programs:-$(cut -d' ' -f1 expected.txt | uniq)}
export -f compile
due 3 $wanted_programs | sed 's/^/compile /' | xargs -P 2 -I WORDS bash -c WORDS 2>"$room/messages"
while read -r program format <&3; do try_program "$program" "$format"; done 3< <(due 3 $wanted_programs)
for format in $(formats_due); do
    try_putting "$format"
    try_addresses "$format" -O2
    try_addresses "$format" -O1 -msmall-data-limit=0 --passes=
done
try_refusals
finish
