# What the host supposes of the chip, for test.sh, whose functions this uses: it reads back what it
# writes, parks all harts but one, and takes nothing as a boot ROM left it.

# The store is to the guard zone: with the first entry as it was locked it would go through.
try_entries() {
    head -n 7 "$cases/outside.s" >"$room/store.s"
    build "$room/store.s" 1 >"$room/image.hex"
    local trap
    trap=$("$SFI" run --rounds 100 --quantum 1000000 <"$room/image.hex")$'\nstatus 0'
    pmp_refused "a locked entry that opens the memory" 0 <<END
        li      t0, ($((chip_ram)) | 0x1fff) >> 2
        csrw    pmpaddr0, t0
        li      t0, 0x9b
        csrw    pmpcfg0, t0
END
    pmp_refused "two entries are there" 2 <<'END'
        li      t0, 0x80800000
        csrw    pmpcfg0, t0
        li      t0, 0x80808080
        csrw    pmpcfg1, t0
END
    after_boot "an entry is locked that one sandbox doesn't need" "$trap" <<'END'
        li      t0, 0x80000000
        csrw    pmpcfg0, t0
END
    pmp_refused "addresses are multiples of 512" 0 <<END
        li      t0, ($((chip_ram)) | 0xff) >> 2
        csrw    pmpaddr0, t0
        li      t0, 0x9b
        csrw    pmpcfg0, t0
END
    after_boot "entries that are there, not locked" "$trap" <<'END'
        li      t0, -1
        csrw    pmpaddr2, t0
        li      t0, 0x1f1f1f1f
        csrw    pmpcfg0, t0
        csrw    pmpcfg1, t0
END
}

# Smepmp's bits, after the entries that a boot ROM then needs itself.
try_mseccfg() {
    local no="device: mseccfg isn't 0: physical memory protection has rules that this host doesn't know"
    no+=$'\nstatus 2'
    after_boot "locked entries may be changed (mseccfg.RLB)" "$no" <<<" csrwi 0x747, 4"
    after_boot "what no entry opens is closed (mseccfg.MMWP)" "$no" <<'END'
        li      t0, -1
        csrw    pmpaddr15, t0
        li      t0, 0x1f000000
        csrw    pmpcfg3, t0
        csrwi   0x747, 2
END
    after_boot "locked entries are those of M-mode (mseccfg.MML)" "$no" <<END
        li      t0, ($((host_at & ~0xfffff)) | 0x7ffff) >> 2
        csrw    pmpaddr15, t0
        li      t0, 0x9d000000
        csrw    pmpcfg3, t0
        csrwi   0x747, 1
END
}

# Hosts whose entries open or close a little more than they should.
try_open_guards() {
    local open="guard zone, doesn't trap" whole='power_of_two(part->data_base, part->data_size)'
    echo $'.sandbox 256\n ebreak\n.sandbox 256\n ebreak' >"$room/two.s"
    edit_host device/ports/pmp.c "s/$whole/power_of_two(part->data_base \& ~511u, 512)/"
    "$SFI" build $(at 1) <<<$'.sandbox 256\n ebreak' >"$room/image.hex"
    host_refuses 0 0x20ff "$open"
    beside "$room/two.s"
    host_refuses 0 256 "$open"
    [ "$chip" = sifive_e ] || return # once: the entries are the same on all
    edit_host device/ports/pmp.c 's/part->data_base - SFI_DEVICE_GUARD_ZONE/& + 4/'
    host_refuses 1 0x1100 "$open"
    edit_host device/ports/pmp.c 's/data_end + SFI_DEVICE_GUARD_ZONE/& - 4/'
    host_refuses 0 0x10ff "$open"
    edit_host device/ports/pmp.c 's/PMP_NAPOT | PMP_R | PMP_W/PMP_NAPOT/'
    host_refuses 0 0 "data, traps"
}

# The timer is due while the checker judges.
try_interrupts_left_on() {
    after_boot "interrupts that were left on" "$1" < <(interrupts_left_on "$time" "$due" 2)
}

# The clock as it is after days, and as its lower word begins anew.
try_clocks() {
    local word
    for word in 1:0 0:0xfffffffe; do
        after_boot "the clock is at ${word/:/, }" "$1" <<END
        li      t0, $time
        sw      x0, 0(t0)
        li      t1, ${word%:*}
        sw      t1, 4(t0)
        li      t1, ${word#*:}
        sw      t1, 0(t0)
END
    done
}

try_harts() {
    local harts
    for harts in 2 5; do
        report "$chip: $harts harts" "$1" \
            "$(QEMU_OPTIONS="-smp $harts" run --rounds 100 --steps <"$room/image.hex"; echo "status $?")"
    done
}

# What a reset leaves in memory is nothing to rely on.
try_memory() {
    head -c $((ram_end - chip_ram)) /dev/zero | tr '\0' '\377' >"$room/ones"
    report "$chip: memory isn't 0 at first" "$1" \
        "$(QEMU_OPTIONS="-device loader,file=$room/ones,addr=$chip_ram,force-raw=on" \
            run --rounds 100 --steps <"$room/image.hex"; echo "status $?")"
}

try_premises() {
    local host_at flash_input time due ram_end boots_at lines
    read -r host_at flash_input time due ram_end < \
        <(macro "FLASH_HOST FLASH_INPUT TIME TIMER_DUE RAM_END")
    boots_at=$(hex "flash_input + 0x3f000")
    try_entries
    build "$room/pair.s" 1 >"$room/image.hex"
    lines=$("$SFI" run --rounds 100 --quantum 1000000 <"$room/image.hex")$'\nstatus 0'
    pmp_refused "an entry of the second sandbox is locked" 3 <<'END'
        li      t0, 0x80000000
        csrw    pmpcfg0, t0
END
    try_memory "$lines"
    case $chip in
    opentitan) try_mseccfg ;; # the clock can't be set, and there is one hart
    *) try_interrupts_left_on "$lines" && try_clocks "$lines" ;;
    esac
    [ "$chip" != sifive_u ] || try_harts "$lines"
}
