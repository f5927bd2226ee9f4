/* QEMU's `virt` in M-mode alone, with memory in the place of flash: hw/riscv/virt.c. The words are those of
   sifive_e's file. */
#ifndef CHIP_H
#define CHIP_H

#define HOST_HART       0
#define PMP_ENTRIES     16
#define SANDBOXES_MOST  5
#define OUTPUT_MOST     4096
#define CALL_BYTES_MOST 256

#define TIME            0x0200bff8      /* ticks of 100 ns */
#define TIMER_DUE       0x02004000
#define TURN_TICKS      100000

/* A 16550A */
#define UART_WORD           uint8_t
#define UART_TRANSMIT       0x10000000
#define UART_STATUS         0x10000005
#define UART_ROOM_MASK      0x20
#define UART_ROOM           0x20
#define UART_RECEIVE        0x10000000
#define UART_RECEIVE_STATUS 0x10000005
#define UART_BYTE_MASK      1
#define UART_BYTE           1

#define FLASH_HOST      0x80000000
#define FLASH_CODE      0x80100000
#define FLASH_ARGUMENTS 0x801ff000
#define FLASH_IMAGE     0x80200000
#define FLASH_INPUT     0x80300000

#define CHIP_RAM        0x80401000
#define HOST_RAM        0x80419000
#define CHECKER_RAM     0x80424000
#define CHECKER_END     0x80428000
#define RAM_END         0x8042c000

#endif
