# A chip without physical memory protection, for test.sh, whose functions this uses: what a sandbox of code in bundles
# stores beside its data stays in its guard zones, and the host's memory is the same to the byte (../cases/sums.c).

# Each row: what stores a word's bytes, what loads them back, and the number that they are then.
pads_rows() {
    echo "sb lbu 17"
    echo "sh lhu 8721"
    echo "sw lw 1144201745"
}

# A turn is measured by QEMU's instructions and not by the machine's clock, under whose load one might end early.
without_pmp() { # words of run.sh; the image is $room/image.hex
    MAIN="main.c $cases/sums.c" HOST_FLAGS=-Wl,--wrap=sfi_device_enter OUT=$room/pads QEMU_OPTIONS="-icount shift=0" \
        run --no-pmp --rounds 100 "$@" <"$room/image.hex"
}

# Stores beside the data, loads it back, and exits with it.
pad_source() { # what stores, what loads; a base, relative to which masks make one, and an offset
    cat <<END
.sandbox 256
.gate exit 0
        li   a1, 0x44332211
        li   a2, $3
        $1   a1, $4(a2)
        $2   a0, $4(a2)
        call exit
END
}

# At the farthest places that an access reaches, and beside the data. Both guard zones of the second sandbox are memory.
try_pads() { # format
    local store load value place base offset
    while read -r store load value; do
        for place in "0 -2048" "0 -4" "-1 1" "-1 2047"; do
            read -r base offset <<<"$place"
            { pad_source "$store" "$load" -1 2047 && pad_source "$store" "$load" "$base" "$offset"; } >"$room/pads.s"
            build "$room/pads.s" "$1" >"$room/image.hex"
            report "$chip: no PMP: $store at $place, format $1" \
                "sandbox=0 exit=$value out="$'\n'"sandbox=1 exit=$value out="$'\nstatus 0' \
                "$(without_pmp; echo "status $?")"
        done
    done < <(pads_rows)
}

# The console's lines are those of `sfi run`, and code in words is refused.
try_without_pmp() {
    local format
    for format in 1 2; do
        ! has_turn "$format" 2 || try_pads "$format"
        build "$room/pair.s" "$format" >"$room/image.hex"
        report "$chip: no PMP: words between two sandboxes, format $format" \
            "$("$SFI" run --rounds 100 --quantum 1000000 <"$room/image.hex" | without_steps)" "$(without_pmp)"
    done
    build "$room/pair.s" words >"$room/image.hex"
    report "$chip: no PMP: code in words" \
        $'device: sandbox 0: code in words is held by guard zones that trap, and here none does\nstatus 2' \
        "$(without_pmp; echo "status $?")"
    try_no_format
    try_no_entries
    try_missing_pads
    try_words_on_pads
}

# A host that asks for guards before it knows an image.
try_no_format() {
    edit_host examples/device/mcu/place.c 's/close_guards(number, part)/close_guards(number, \&(struct sfi_device_part){0})/'
    build "$room/pair.s" 1 >"$room/image.hex"
    report "$chip: no PMP: guards of no format" \
        "device: sandbox 0: code in words is held by guard zones that trap, and here none does" \
        "$(cd "$edited/$own" && by=(--unchecked) && without_pmp)"
}

# A chip.h that says that the chip has no entries.
try_no_entries() {
    edit_host examples/device/mcu/chips/sifive_e/chip.h 's/PMP_ENTRIES .*/PMP_ENTRIES 0/'
    build "$room/pair.s" 1 >"$room/image.hex"
    report "$chip: no PMP: words between two sandboxes, with no entries in chip.h" \
        "$("$SFI" run --rounds 100 --quantum 1000000 <"$room/image.hex" | without_steps)" \
        "$(cd "$edited/$own" && by=(--unchecked) && without_pmp)"
}

# A host whose own memory is in a guard zone sees that it has changed.
try_missing_pads() {
    local from
    edit_host examples/device/mcu/place.c 's/- part->data_size >= SFI_DEVICE_GUARD_ZONE/- part->data_size >= 1/'
    from=$(printf '%x:%x' $((flash_code)) $((host_ram - 512)))
    pad_source sb lbu -1 2047 >"$room/pads.s"
    "$SFI" build --at "$from" <"$room/pads.s" >"$room/image.hex"
    report "$chip: no PMP: the host's memory beside the data" \
        $'device: the host\'s memory isn\'t as it was before a sandbox ran' \
        "$(cd "$edited/$own" && by=(--unchecked) && without_pmp)"
}

# Code in words gets out on a host that doesn't refuse it.
try_words_on_pads() {
    edit_host device/ports/none.c 's/!= SFI_DEVICE_FORMAT_2/< SFI_DEVICE_FORMAT_2/'
    { echo .format words && head -n 14 "$room/out.s" | tail -n +2 && printf '.sandbox 256\n ebreak\n'; } >"$room/far.s"
    beside "$room/far.s"
    report "$chip: no PMP: code in words that gets out" "written=$(printf %08x $((data_at + 0x2100))):5a" \
        "$(cd "$edited/$own" && by=(--unchecked) && without_pmp --written | grep -o 'written=.*')"
}
