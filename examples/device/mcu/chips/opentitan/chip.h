/* QEMU's `opentitan`: hw/riscv/opentitan.c, hw/timer/ibex_timer.c, hw/char/ibex_uart.c. The words are
   those of sifive_e's file. */
#ifndef CHIP_H
#define CHIP_H

#define HOST_HART       0
#define PMP_ENTRIES     16
#define SANDBOXES_MOST  5
#define OUTPUT_MOST     4096
#define CALL_BYTES_MOST 256

#define TIME            0x40100104      /* ticks of 100 us */
#define TIMER_DUE       0x4010010c
#define TIMER_STATE     0x40100118      /* a 1 that is stored here ends the interrupt */
#define TURN_TICKS      100

#define UART_WORD           uint32_t
#define UART_TRANSMIT       0x4000001c
#define UART_STATUS         0x40000014
#define UART_ROOM_MASK      1
#define UART_ROOM           0
#define UART_RECEIVE        0x40000018
#define UART_RECEIVE_STATUS 0x40000014
#define UART_BYTE_MASK      0x20
#define UART_BYTE           0
/* The UART sends and receives, at its highest rate; the timer has a step of 1, interrupts and counts */
#define CHIP_START      {0x40000010, 0xff000003}, \
                        {0x40100100, 1 << 16}, {0x40100114, 1}, {0x40100004, 1}

#define FLASH_HOST      0x20000400
#define FLASH_CODE      0x20020000
#define FLASH_ARGUMENTS 0x2007f000
#define FLASH_IMAGE     0x20080000
#define FLASH_INPUT     0x200c0000

#define CHIP_RAM        0x10000000      /* 128 KiB */
#define HOST_RAM        0x10018000
#define RAM_END         0x10020000
#define CHECKER_RAM     CHIP_RAM
#define CHECKER_END     HOST_RAM

#endif
