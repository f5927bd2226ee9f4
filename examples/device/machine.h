/* QEMU's `virt` with 256 MiB. C and assembly read this file, so it has macros alone. */
#ifndef MACHINE_H
#define MACHINE_H

#include "privileged.h"                 /* of device/: what the manuals say */

#ifndef MICROCONTROLLER
/* ---- QEMU's devices and memory: hw/riscv/virt.c, virt_memmap */
#define UART_DEVICE     0x10000000      /* a 16550A */
#define UART_TRANSMIT   0               /* register: a byte stored here is sent */
#define UART_STATUS     5               /* register: the line's status */
#define UART_IS_EMPTY   0x20            /* in it: the next byte can be stored */
#define FINISHER_DEVICE 0x00100000      /* a word stored at SiFive's test device ends QEMU */
#define FINISH_PASSED   0x5555          /* with status 0 */
#define FINISH_FAILED   0x3333          /* with the status in the upper 16 bits */
#define FINISH_STATUS   16              /* is added to it: QEMU fails of itself in 1 */
#define RAM             0x80000000

/* ---- Where the loader keeps things there; run.sh writes the same addresses */
#define ARGUMENTS       0x87fff000      /* struct arguments; the pool of pages ends here */
#define IMAGE           0x88000000
#define INPUT           0x8c000000
/* Once there is a page table the two devices are here: the UART's own address is that of the
   sixteenth sandbox. */
#define UART            0x90000000
#define FINISHER        0x90001000
#define HOST_END        0x90002000      /* the host's addresses are those from RAM to here */

#define HOST_HART       0               /* all others are parked */
#define SANDBOXES_MOST  16
#define OUTPUT_MOST     1048576         /* bytes that a sandbox can put */
#define CALL_BYTES_MOST 256             /* bytes that a call moves with interrupts off */
#else
#include "chip.h"                       /* the same words for a chip without paging */
#ifndef CODE_AS_DATA
#define CODE_AS_DATA(address)   (address)       /* where a load finds what is executed at the address */
#endif
#endif

/* ---- What board_call of springboards.c answers board.S */
#define BOARD_REPLIED           0
#define BOARD_AGAIN             1               /* the call is made again, after an interrupt if one is due */
#define BOARD_LEAVES            2               /* the turn ends */

#endif
