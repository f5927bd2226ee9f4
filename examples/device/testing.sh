# What test.sh and mcu/test.sh share. Before it is sourced, `here` is the folder of the run.sh that is tried, and
# SFI the program.
shared=$(cd "$(dirname "${BASH_SOURCE[0]}")" && pwd)
cases=$shared/cases
export SFI
source "$shared/../harness.sh"
source "$shared/images.sh"
source "$shared/judging.sh"
source "$shared/test_vendor.sh"
source "$shared/test_debugging.sh"
cd "$here" || exit 1

for need in "qemu-system-riscv32 qemu-system-misc" "riscv64-unknown-elf-gcc gcc-riscv64-unknown-elf" \
    "make make" "xxd xxd" "python3 python3"; do
    needs "images on RV32" $need
done
[ "$skipped" = 0 ] || finish

on=() # words of run.sh that name the chip
by=() # those that name the checker on the device, or say that there is none

# The lines of run.sh but those of each trap's pc.
run() { ./run.sh "${on[@]}" "${by[@]}" "$@" | sed '/ pc=/d'; }

at() { # numbers of sandboxes with 256 bytes of data each, whose places lie next to each other
    local number
    for number; do
        printf -- '--at %x:%x ' $((code_at + 0x1000 * number)) $((data_at + 0x2100 * number))
    done
}

without_steps() { sed 's/ steps=[0-9]*//'; }

refused_by_script() { # status, the line; the words of the command line. The image is $room/image.hex
    local status=$1 line=$2
    shift 2
    report "run.sh $*" "$line"$'\n'"status $status" \
        "$(run "$@" <"$room/image.hex" 2>&1; echo "status $?")"
}

# After a boot ROM at $boots_at, which ends at the host's first instruction at $host_at.
after_boot() { # what is tried, what is wanted; the boot ROM's assembly on standard input
    local words
    words=$(boot_rom "$boots_at" "$host_at")
    report "$chip: $1" "$2" \
        "$(QEMU_OPTIONS=$words run --rounds 100 --steps <"$room/image.hex"; echo "status $?")"
}

pmp_refused() { # what is tried, the entry; a boot ROM's assembly on standard input
    after_boot "$1" \
        "device: entry $2 of physical memory protection isn't as it was written"$'\nstatus 2'
}

interrupts_left_on() { # addresses of the clock and of the timer, and in how many ticks that is due: assembly
    cat <<END
        li      t0, $1
        lw      t1, 0(t0)
        addi    t1, t1, $3
        li      t0, $2
        sw      x0, 4(t0)
        sw      t1, 0(t0)
        li      t0, -1
        csrw    mie, t0
        csrsi   mstatus, 8
END
}
