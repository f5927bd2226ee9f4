/* All of the loader is at the beginning of RAM; what isn't written below is in machine.h. start.S
   clears its memory. */
ENTRY(start)
SECTIONS {
    . = 0x80000000;
    .text : {
        KEEP(*(.init))
        *(.text .text.*)
        *(.rodata .rodata.* .srodata*)
        *(.data .data.* .sdata*)
    }
    .bss (NOLOAD) : {
        . = ALIGN(4096);
        loader_memory = .;
        *(.bss .bss.* .sbss* COMMON)
        . = ALIGN(16);
        stack_bottom = .;
        . += 16384;
        stack_top = .;
    }
    window = ALIGN(0x100000);
}
