OUTPUT_ARCH(riscv)
ENTRY(start)
SECTIONS {
    . = 0x80000000;
    .text : { KEEP(*(.init)) *(.text .text.*) *(.rodata .rodata.* .srodata .srodata.*) *(.data .data.* .sdata .sdata.*) }
    .bss (NOLOAD) : ALIGN(16) { bss_start = .; *(.bss .bss.* .sbss .sbss.* COMMON) . = ALIGN(16); bss_end = .; }
    . += 0x8000;
    stack_top = .;
    ASSERT(. <= 0x80100000, "the firmware reaches the plug-ins' code")
    /DISCARD/ : { *(.comment) *(.eh_frame) }
}
