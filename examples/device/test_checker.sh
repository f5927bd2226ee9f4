# The checker on the device, for test.sh, whose functions this uses.

# A stack of 1536 bytes is less than a verdict takes: the access below it is refused.
try_small_stack() {
    local library=${WASM_LIBRARY:-../../crates/sfi_c/out/wasm64-unknown-unknown/libsfi_c.a}
    CHECKER_FLAGS=-DMODULE_STACK=1536 ../../device/checker.sh "$library" "$room/small"
    report "too small a stack for the checker" $'device: the checker stopped\nstatus 2' \
        "$(run --checker "$room/small/checker.o" <../smallest.hex; echo "status $?")"
}

# A host that goes on with an image that was refused: it is told of no sandbox.
try_refused() {
    cp "$room/attack0.hex" "$room/image.hex"
    edit_host examples/device/image.c 's/^    fail(status == SFI_DEVICE_NOT_ACCEPTED.*/    return;/'
    report "a host that goes on with what was refused" \
        "device: $("$SFI" check <"$room/image.hex")"$'\ndevice: the checker stopped\nstatus 2' \
        "$(cd "$edited" && OUT=$room/edited_out run <"$room/image.hex"; echo "status $?")"
}

at_most() { # what is tried, the most that it may be, a line that ends in the number
    local number=${3##*=}
    [[ $number =~ ^[0-9]+$ ]] && [ "$number" -le "$2" ]
    report_as $? "$1" "at most $2" "$3"
}

# What README.md says that a verdict and a gate's call cost at most, of the images that cost most: by gcc 12.
try_costs() {
    local number worst
    worst=$(../../bench/worst_verdict.py --checker "$room/checker/checker.o")
    add_counts "$(tail -n 1 <<<"$worst")" || failed=$((failed + 1))
    grep ' FAILED$' <<<"$worst"
    {
        echo .sandbox 4096
        for ((number = 0; number < 63; number++)); do echo ".gate g$number 0"; done
        printf '.gate g63 2\n li a0, 0x01800000\n li a1, 512\n call g63\n ebreak\n'
    } >"$room/gates.s"
    build "$room/gates.s" 1 >"$room/image.hex"
    at_most "the longest section without interrupts, of 64 gates" 1604 "$(
        run --checker "$room/checker/measured.o" --steps --input "$(printf '61%.0s' {1..1024})" <"$room/image.hex" |
            tail -n 1)"
}

try_checker() {
    local number format
    by=(--checker "$room/checker/checker.o")
    turns=(10000)
    for format in $formats; do
        compare_examples "$format"
        compare_programs "$format" 3
        judge_flips "$format"
    done
    for ((number = 0; number < ${#attacks[@]}; number++)); do
        cp "$room/attack$number.hex" "$room/image.hex"
        judged "${attacks[number]}"
    done
    judge_layouts
    try_refused
    compare "sixteen sandboxes, which the checker tells" "$room/sixteen.hex" '' steps
    by=()
    case $(riscv64-unknown-elf-gcc -dumpversion) in
    12.*) try_costs ;;
    *) skip 5 "what a verdict and a call cost" "the numbers are those of gcc 12" ;;
    esac
    [ -z "$all" ] || try_small_stack
}

! make_checker || try_checker
