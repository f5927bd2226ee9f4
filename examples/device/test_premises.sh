# What the loader supposes of the machine, for test.sh, whose functions this uses: it reads back what it
# writes, parks all harts but one, and takes no interrupt as it was found.

boots_at=0x8f000000 host_at=0x80000000

refused_on() { # what is tried, the reason, words for QEMU; the image is $room/image.hex
    report "$1" "device: $2"$'\nstatus 2' \
        "$(QEMU_OPTIONS=$3 run <"$room/image.hex"; echo "status $?")"
}

"$SFI" build <../hi.s >"$room/image.hex"
refused_on "no physical memory protection" \
    "entry 0 of physical memory protection isn't as it was written" "-cpu rv32,pmp=off"
refused_on "no paging" "satp isn't as it was written: there is no paging" "-cpu rv32,mmu=off"
found=$(QEMU_OPTIONS="-cpu rv32,sstc=off" run <"$room/image.hex"; echo "status $?")
report "no timer of Sstc" $'device: a fault of the host, cause 00000002\nstatus 3' \
    "$(sed 's/ at .*//' <<<"$found")"
pmp_refused "a locked entry that opens all memory" 0 <<'END'
        li      t0, -1
        csrw    pmpaddr0, t0
        li      t0, 0x9f
        csrw    pmpcfg0, t0
END
pmp_refused "the window's entry is locked, and off" 14 <<'END'
        li      t0, 0x800000
        csrw    pmpcfg3, t0
END
QEMU_OPTIONS=$(boot_rom "$boots_at" "$host_at" <<'END'
        li      t0, -1
        csrw    pmpaddr3, t0
        li      t0, 0x1f000000
        csrw    pmpcfg0, t0
END
)
export QEMU_OPTIONS
compare "entries that are there already, not locked" "$room/image.hex" '' steps
# The timer of M-mode is due while the loader prepares its memory.
QEMU_OPTIONS=$(interrupts_left_on 0x0200bff8 0x02004000 200 | boot_rom "$boots_at" "$host_at")
compare "interrupts that were left on" "$room/image.hex" '' steps
unset QEMU_OPTIONS

# Smepmp's bits, after the entries that a boot ROM then needs itself.
try_mseccfg() { # what is tried; a boot ROM's assembly on standard input
    refused_on "$1" "mseccfg isn't 0: physical memory protection has rules that this host doesn't know" \
        "-cpu rv32,x-epmp=true $(boot_rom "$boots_at" "$host_at")"
}
try_mseccfg "locked entries may be changed (mseccfg.RLB)" <<<" csrwi 0x747, 4"
try_mseccfg "what no entry opens is closed (mseccfg.MMWP)" <<'END'
        li      t0, -1
        csrw    pmpaddr15, t0
        li      t0, 0x1f000000
        csrw    pmpcfg3, t0
        csrwi   0x747, 2
END
try_mseccfg "locked entries are those of M-mode (mseccfg.MML)" <<END
        li      t0, $host_at >> 2
        csrw    pmpaddr13, t0
        li      t0, $(symbol loader_memory) >> 2
        csrw    pmpaddr14, t0
        li      t0, ($boots_at | 0x7ff) >> 2
        csrw    pmpaddr15, t0
        li      t0, 0x9d8d0000
        csrw    pmpcfg3, t0
        csrwi   0x747, 1
END

# Hosts whose page table or entries open or close a little more than they should.
try_open_guards() {
    local open="guard zone, doesn't trap" small='if (part->data_size < PAGE && !open'
    local map='map_region(space, part->data_base \/ PAGE * PAGE - PAGE, PAGE, PTE_R, part->first, 0);\n    &'
    echo $'.sandbox 256\n ebreak' >"$room/one.s"
    beside "$room/one.s"
    edit_host device/ports/sv32.c "s/$small/$map/"
    host_refuses 0 -4096 "$open"
    edit_host device/ports/sv32.c "s/$small/${map/- PAGE/+ PAGE}/"
    host_refuses 0 0x10ff "$open"
    edit_host device/ports/sv32.c 's/PAGE, part->data_size)/PAGE, part->data_size * 2)/'
    host_refuses 0 256 "$open"
    "$SFI" build --at 1000000:1800100 <"$room/one.s" >"$room/image.hex"
    host_refuses 0 255 "$open"
    edit_host device/ports/sv32.c 's/PMP_NAPOT | PMP_R | PMP_W)/PMP_NAPOT)/'
    host_refuses 0 256 "data, traps"
}
try_open_guards

for harts in 2 4; do
    QEMU_OPTIONS="-smp $harts"
    compare "$harts harts" "$room/image.hex" '' steps
    compare "$harts harts, sixteen sandboxes" "$room/sixteen.hex" '' steps
done
unset QEMU_OPTIONS
