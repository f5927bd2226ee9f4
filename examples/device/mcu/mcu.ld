/* The host's code and constants in flash, all else at the end of the memory. The checker has its memory and
   the stack on which it runs where chip.h says. */
#include "chip.h"
OUTPUT_FORMAT(elf32-littleriscv)
ENTRY(start)
SECTIONS {
    . = FLASH_HOST;
    .text : { *(.init) *(.text .text.*) *(.rodata .rodata.* .srodata .srodata.*) }
    text_end = .;
    ASSERT(. <= FLASH_CODE, "the host reaches the sandboxes' code")
    . = CHECKER_RAM;
    .checker (NOLOAD) : { *(.bss.sfi_device_checker_memory) . = ALIGN(16); stack_bottom = .; }
    judge_stack_top = CHECKER_END;
    ASSERT(. + 2560 <= CHECKER_END, "no room for the checker and its stack")
    . = HOST_RAM;
    .bss (NOLOAD) : { *(.bss .bss.* .sbss .sbss.* COMMON) }
    ASSERT(CHECKER_RAM < HOST_RAM || . <= CHECKER_RAM, "the host's variables reach the checker's memory")
    . = MAX(., CHECKER_END);
    stack_top = RAM_END;
    ASSERT(. + 1024 <= RAM_END, "no room for the stack")
    /DISCARD/ : { *(.comment) *(.eh_frame) }
    .data : { *(.data .data.*) }
    ASSERT(SIZEOF(.data) == 0, "nothing copies data")
}
