# From reset to the firmware's main, in M-mode, with all interrupts off but the timer's, which waits for a plug-in's turn. Each
# trap and interrupt comes to the library.
        .section .init, "ax"
        .globl  start
start:  la      sp, stack_top
        la      t0, vectors + 1         # 1: an interrupt comes to the vector of its cause
        csrw    mtvec, t0
        csrw    mscratch, zero          # the firmware runs, and no plug-in
        li      t0, 1 << 7              # the timer's
        csrw    mie, t0
        la      t0, bss_start
        la      t1, bss_end
clear:  bgeu    t0, t1, cleared
        sw      zero, 0(t0)
        addi    t0, t0, 4
        j       clear
cleared:
        call    main
        j       power_off

        .globl  sfi_device_trap_of_host
sfi_device_trap_of_host:                # the firmware's own traps
        la      a0, trapped
        call    print
        csrr    a0, mepc
        call    print_number
        j       power_off

        .balign 256
vectors:
        .rept   32
        j       sfi_device_trapped
        .endr

        .section .rodata
trapped: .asciz "the firmware trapped at "
