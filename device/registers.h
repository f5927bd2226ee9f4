/* Assembly: registers by the calling convention, at a register that has the address of their place. */
        .macro  each_kept operation     # of the host, those that a function keeps
        \operation ra, 0(sp)
        \operation gp, 4(sp)
        \operation tp, 8(sp)
        .irp    r, 0,1,2,3,4,5,6,7,8,9,10,11
        \operation s\r, 12+4*\r(sp)
        .endr
        .endm
        .macro  each_passed operation   # of a sandbox, those that a function may change, but t0, and a0, which has the frame
        .irp    r, 1,6,7,11,12,13,14,15,16,17,28,29,30,31
        \operation x\r, 4*\r(a0)
        .endr
        .endm
