/* QEMU's `spike` in M-mode alone, with memory in the place of flash: hw/riscv/spike.c. The words are those of
   sifive_e's file. */
#ifndef CHIP_H
#define CHIP_H

#define HOST_HART       0
#define PMP_ENTRIES     16
#define SANDBOXES_MOST  5
#define OUTPUT_MOST     4096
#define CALL_BYTES_MOST 256

#define TIME            0x0200bff8      /* ticks of 100 ns */
#define TIMER_DUE       0x02004000
#define TURN_TICKS      100000

#define UART_IS_HTIF    1               /* Berkeley's host-target interface, in the place of a UART */

#define FLASH_HOST      0x80000000
#define FLASH_CODE      0x80100000
#define FLASH_ARGUMENTS 0x801ff000
#define FLASH_IMAGE     0x80200000
#define FLASH_INPUT     0x80300000

#define CHIP_RAM        0x80401000
#define HOST_RAM        0x80419000
#define CHECKER_RAM     0x80424000
#define CHECKER_END     0x80428000
#define RAM_END         0x8042c000

#endif
