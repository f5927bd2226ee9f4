/* QEMU's `sifive_e`, a model of SiFive's FE310: hw/riscv/sifive_e.c, and the chip's manual. C, assembly,
   the linker's script and run.sh read this file, so it has macros alone. */
#ifndef CHIP_H
#define CHIP_H

#define HOST_HART       0               /* all others are parked */
#define PMP_ENTRIES     8               /* a multiple of 4; three for each sandbox */
#define SANDBOXES_MOST  2
#define OUTPUT_MOST     256             /* bytes that a sandbox can put */
#define CALL_BYTES_MOST 256             /* bytes that a call moves with interrupts off */

/* The timer: two words each, the lower one first */
#define TIME            0x0200bff8      /* ticks of 1/32768 s, of 100 ns in the model */
#define TIMER_DUE       0x02004000      /* the timer interrupts the host's hart from this time on */
#define TURN_TICKS      328             /* a turn's, where run.sh is given none */

/* The serial line, whose registers are read and written as a UART_WORD. There is room for a byte where
   the bits UART_ROOM_MASK of UART_STATUS are UART_ROOM, and one has come where the bits UART_BYTE_MASK of
   UART_RECEIVE_STATUS are UART_BYTE. */
#define UART_WORD           uint32_t
#define UART_TRANSMIT       0x10013000
#define UART_STATUS         0x10013000
#define UART_ROOM_MASK      0x80000000
#define UART_ROOM           0
#define UART_RECEIVE        0x10013004
#define UART_RECEIVE_STATUS 0x10013004
#define UART_BYTE_MASK      0x80000000
#define UART_BYTE           0
/* Words that are stored first, {address, word}, if there are any: the line sends and receives */
#define CHIP_START          {0x10013008, 1}, {0x1001300c, 1}

/* Flash: the host, what run.sh asks for, and the image. Each sandbox's code is where the image has
   it, from FLASH_CODE on. */
#define FLASH_HOST      0x20400000
#define FLASH_CODE      0x20500000
#define FLASH_ARGUMENTS 0x205ff000
#define FLASH_IMAGE     0x20600000
#define FLASH_INPUT     0x20700000

/* 16 KiB of memory: the sandboxes' data and guard zones, and the host's. In the 4096 addresses below
   CHIP_RAM is nothing that anyone uses. The checker's memory and its stack are where the sandboxes' data
   are later, or apart from them, between the host's variables and its stack. */
#define CHIP_RAM        0x80000000
#define HOST_RAM        0x80003200
#define RAM_END         0x80004000
#define CHECKER_RAM     CHIP_RAM
#define CHECKER_END     HOST_RAM

#endif
