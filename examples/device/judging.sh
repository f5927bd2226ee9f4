# The checker on the device beside `sfi check`. A part of testing.sh. WASM_LIBRARY is the absolute path of the
# library for wasm64; that of crates/sfi_c at the top if absent. SLOTS_LIBRARY likewise, of crates/sfi_slots.

# Answers whether there is a checker to try; else it is skipped, or has failed.
make_checker() {
    local why status
    local library=${WASM_LIBRARY:-$shared/../../crates/sfi_c/out/wasm64-unknown-unknown/libsfi_c.a}
    local slots=${SLOTS_LIBRARY:-$shared/../../crates/sfi_slots/out/wasm64-unknown-unknown/libsfi_slots.a}
    why=$("$shared/../../device/checker.sh" "$library" "$room/checker" "$slots" 2>&1 && "$shared/measured.sh" "$room/checker" 2>&1)
    status=$?
    if [ "$status" = 3 ]; then
        skip 1 "the checker on the device" "${why#checker.sh: }"
        return 1
    fi
    report "checker.sh" "status 0" "${why:+$why }status $status"
    return "$status"
}

judged() { # what is tried; the image is $room/image.hex
    local wanted found
    wanted=$("$SFI" check <"$room/image.hex"; echo "status $?")
    found=$(run --rounds 1 <"$room/image.hex"; echo "status $?")
    case $found in
    "device: sandbox "*) found=accepted ;; # and there is no place for it
    "device: "*) found=${found#device: } ;;
    sandbox=*) found=accepted ;;
    esac
    # The device stops after the first 2048 bytes in which a rule is broken, and the desk goes on to the end.
    [[ $found != $'refused\nstatus 1' || $wanted == accepted* ]] || wanted=$found
    [ "$found" != accepted ] || wanted=${wanted%% *}
    report "$1: judged on the device" "$wanted" "$found"
}

# The smallest image has its magic at 0, its count at 4, code base and size at 8 and 12, data base and
# size at 16 and 20, its start at 24, how many gates and first bytes it has at 28 and 32, its code at
# 36.
smallest=$(tr -d ' \n' <"$shared/../smallest.hex")

changed() { # what is tried, a place in the smallest image, hexadecimal digits that it has instead
    echo "${smallest:0:2*$2}$3${smallest:2*$2+${#3}}" >"$room/image.hex"
    judged "$1"
}

judge_layouts() {
    local length
    for length in 0 3 4 7 8 35 36 37 291; do
        echo "${smallest:0:2*length}" >"$room/image.hex"
        judged "an image of $length bytes"
    done
    changed "another magic" 0 53464930
    changed "a format that isn't there" 0 53464933
    changed "no sandbox" 4 00000000
    changed "17 sandboxes" 4 11000000
    changed "code of 768 bytes" 12 00030000
    changed "data of 255 bytes" 20 ff000000
    changed "data at 0" 16 00000000
    changed "a start within a bundle" 24 04000001
    changed "65 gates" 28 41000000
    changed "257 first bytes" 32 01010000
    changed "the same sandbox twice" 4 "02000000${smallest:16}${smallest:16}"
    changed "a byte too many" 0 "${smallest}00"
}

# Flips a bit here and there in a program's code: some are accepted, others break one rule or many.
judge_flips() { # format
    local whole place bit byte
    c_image sort "$1" "$room/whole.hex"
    whole=$(tr -d ' \n' <"$room/whole.hex")
    for bit in 0 1 2 3 4 5 6 7; do
        place=$((2 * (300 + 151 * bit)))
        byte=$(printf %02x $((0x${whole:place:2} ^ 1 << bit)))
        echo "${whole:0:place}$byte${whole:place+2}" >"$room/image.hex"
        judged "bit $bit of byte $((place / 2)), format $1"
    done
}
