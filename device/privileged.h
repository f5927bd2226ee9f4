/* What the manuals say of RV32. Chapters are those of the RISC-V privileged manual (volume II), unless another is named. C
   and assembly read this file, so it has macros alone. No header that a firmware includes names it. */
#ifndef SFI_DEVICE_PRIVILEGED_H
#define SFI_DEVICE_PRIVILEGED_H

#include "sfi_device_config.h"

/* ---- Machine-Level ISA, "Machine Cause Register", and Supervisor-Level ISA, "Supervisor Cause
   Register" */
#define CAUSE_FETCH_MISALIGNED  0
#define CAUSE_FETCH_ACCESS      1
#define CAUSE_ILLEGAL           2
#define CAUSE_BREAKPOINT        3
#define CAUSE_LOAD_MISALIGNED   4
#define CAUSE_LOAD_ACCESS       5
#define CAUSE_STORE_MISALIGNED  6
#define CAUSE_STORE_ACCESS      7
#define CAUSE_ECALL_FROM_U      8
#define CAUSE_ECALL_FROM_S      9
#define CAUSE_ECALL_FROM_M      11
#define CAUSE_FETCH_PAGE        12
#define CAUSE_LOAD_PAGE         13
#define CAUSE_STORE_PAGE        15
#define CAUSE_INTERRUPT         (1u << 31)      /* set where it is an interrupt, and no exception */
#define CAUSE_SUPERVISOR_TIMER  (1u << 31 | 5)
#define CAUSE_MACHINE_TIMER     (1u << 31 | 7)

/* ---- Machine-Level ISA: mstatus, and the upper half of menvcfg, whose STCE turns on stimecmp */
#define MSTATUS_MPIE            (1 << 7)        /* interrupts are on after mret */
#define MSTATUS_MPP_SUPERVISOR  (1 << 11)       /* mret goes to S-mode */
#define MSTATUS_MPP_MACHINE     (3 << 11)       /* mret stays in M-mode */
#define MENVCFGH                0x31a
#define MENVCFGH_STCE           (1 << 31)

/* ---- Machine-Level ISA: mie */
#define MIE_MTIE                (1 << 7)        /* the timer may interrupt */

/* ---- Supervisor-Level ISA: sstatus, sie (whose bits mie has too), satp */
#define SSTATUS_SIE             (1 << 1)        /* interrupts are on */
#define SSTATUS_SPIE            (1 << 5)        /* interrupts are on after sret */
#define SSTATUS_SPP             (1 << 8)        /* sret stays in S-mode */
#define SIE_STIE                (1 << 5)        /* the timer may interrupt */
#define SATP_SV32               (1u << 31)

/* ---- "Sstc": the timer interrupts once `time` reaches this */
#define STIMECMP                0x14d
#define STIMECMPH               0x15d

/* ---- Supervisor-Level ISA, "Sv32": an entry of a page table. PTE_X alone: executed, not read */
#define PAGE                    4096
#define MEGAPAGE                (1 << 22)
#define PTE_V                   1
#define PTE_R                   2
#define PTE_W                   4
#define PTE_X                   8
#define PTE_ACCESSED            0x40
#define PTE_DIRTY               0x80

/* ---- Machine-Level ISA, "Physical Memory Protection": a byte of pmpcfg */
#define PMP_R                   1
#define PMP_W                   2
#define PMP_X                   4
#define PMP_OFF                 0               /* matches nothing; the next entry may begin here */
#define PMP_TOR                 (1 << 3)        /* from the entry before to this one */
#define PMP_NAPOT               (3 << 3)        /* a power of two of addresses, aligned to it */
#define PMP_LOCKED              (1 << 7)        /* holds in M-mode too, until the next reset */
#define PMPCFG0                 0x3a0           /* four entries in each word */
#define PMPADDR0                0x3b0

/* ---- "Smepmp": where this isn't 0, the rules of protection are others */
#define MSECCFG                 0x747

/* ---- The mode that host and sandboxes share */
#if SFI_DEVICE_IN_M_MODE
#define SCRATCH                 mscratch
#define EXCEPTION_PC            mepc
#define CAUSE                   mcause
#define STATUS                  mstatus
#ifdef SFI_DEVICE_PLUGINS_IN_U_MODE             /* to compare with: examples/device/umode */
#define STATUS_AT_ENTRY         MSTATUS_MPIE    /* mstatus.MPP stays 0, U-mode, as start.S and each trap leave it */
#define CAUSE_ECALL             CAUSE_ECALL_FROM_U
#else
#define STATUS_AT_ENTRY         (MSTATUS_MPP_MACHINE | MSTATUS_MPIE)
#define CAUSE_ECALL             CAUSE_ECALL_FROM_M
#endif
#define RETURN                  mret
#define RETIRED                 minstret
#define MTVEC_VECTORED          1               /* an interrupt comes to the base + 4 * its cause */
#define CAUSE_TIMER             CAUSE_MACHINE_TIMER
#else
#define SCRATCH                 sscratch
#define EXCEPTION_PC            sepc
#define CAUSE                   scause
#define STATUS                  sstatus
#define STATUS_AT_ENTRY         (SSTATUS_SPP | SSTATUS_SPIE)
#define STATUS_INTERRUPTS       SSTATUS_SIE
#define RETURN                  sret
#define RETIRED                 instret
#define CAUSE_ECALL             CAUSE_ECALL_FROM_S
#define CAUSE_TIMER             CAUSE_SUPERVISOR_TIMER
#endif

/* ---- struct sfi_device_frame: offsets for switch.S */
#define FRAME_PC                128
#define FRAME_HOST_STACK        132
#define FRAME_BEFORE            136
#define FRAME_AFTER             140
#define FRAME_CALLED            144
#define FRAME_FIRMWARE          148
#define HOST_STACK_FRAME        60              /* the frame, behind what each_kept has there */

/* ---- The cause by which `sfi_device_enter` tells that the answer to a gate's call ends the turn: a number that no processor
   has, since the manual reserves those from 64 on */
#define CAUSE_GATE              (1 << 30)

#endif
