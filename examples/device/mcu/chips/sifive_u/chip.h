/* QEMU's `sifive_u` of 32 bits, in M-mode alone: hw/riscv/sifive_u.c. It has several harts, and memory in
   the place of flash. The words are those of sifive_e's file. */
#ifndef CHIP_H
#define CHIP_H

#define HOST_HART       0
#define PMP_ENTRIES     16
#define SANDBOXES_MOST  5
#define OUTPUT_MOST     4096
#define CALL_BYTES_MOST 256

#define TIME            0x0200bff8      /* ticks of 1 us */
#define TIMER_DUE       0x02004000
#define TURN_TICKS      10000

#define UART_WORD           uint32_t
#define UART_TRANSMIT       0x10010000
#define UART_STATUS         0x10010000
#define UART_ROOM_MASK      0x80000000
#define UART_ROOM           0
#define UART_RECEIVE        0x10010004
#define UART_RECEIVE_STATUS 0x10010004
#define UART_BYTE_MASK      0x80000000
#define UART_BYTE           0
#define CHIP_START          {0x10010008, 1}, {0x1001000c, 1}

#define FLASH_HOST      0x80000000
#define FLASH_CODE      0x80100000
#define FLASH_ARGUMENTS 0x801ff000
#define FLASH_IMAGE     0x80200000
#define FLASH_INPUT     0x80300000

#define CHIP_RAM        0x80401000      /* what is below isn't used from 80400000 on */
#define HOST_RAM        0x80419000
#define CHECKER_RAM     0x80424000
#define CHECKER_END     0x80428000
#define RAM_END         0x8042c000

#endif
