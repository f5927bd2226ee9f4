/* A sandbox: the code region with the gates' stubs first, and the data region. tools/sfi-image reads what ld makes of it. */
OUTPUT_FORMAT("elf32-littleriscv")
OUTPUT_ARCH(riscv)
ENTRY(_sfi_start)

/* Where the sandbox lies. */
__sfi_code = DEFINED(__sfi_code_base) ? __sfi_code_base : 0x01000000;
__sfi_data = DEFINED(__sfi_data_base) ? __sfi_data_base : 0x01800000;

/* How far beside an object the base of an access to it may lie: the most that a file says. */
__sfi_below =
    DEFINED(__sfi_below_2304) ? 2304 :
    DEFINED(__sfi_below_1024) ? 1024 :
    DEFINED(__sfi_below_512) ? 512 :
    DEFINED(__sfi_below_256) ? 256 :
    DEFINED(__sfi_below_128) ? 128 :
    DEFINED(__sfi_below_64) ? 64 : 0;
__sfi_above =
    DEFINED(__sfi_above_2304) ? 2304 :
    DEFINED(__sfi_above_1024) ? 1024 :
    DEFINED(__sfi_above_512) ? 512 :
    DEFINED(__sfi_above_256) ? 256 :
    DEFINED(__sfi_above_128) ? 128 :
    DEFINED(__sfi_above_64) ? 64 : 0;

/* A program without exceptions has no frames to tell an unwinder (exceptions.ld). */
PROVIDE(__sfi_frames = 0);

/* A C library's _start calls main itself. */
__sfi_main = DEFINED(_start) ? _start : main;

PHDRS { code PT_LOAD FLAGS(5); data PT_LOAD FLAGS(6); }

SECTIONS {
    .text __sfi_code : {
        QUAD(0x9002900290029002) QUAD(0x9002900290029002) /* a call of a null pointer traps */
        KEEP(*(.sfi.stubs .sfi.stubs.*))
        . = ALIGN(16);
        KEEP(*(.sfi.first)) KEEP(*(.sfi.start))
        *(.text.unlikely .text.unlikely.*) *(.text .text.*)
        . = ALIGN(16);
        LONG(0x90029002) /* the code's last instruction is an ebreak */
    } :code = 0x02900290

    /* Small objects, which lie in the region's first 2048 bytes. A base lies below one by no more than its size and a step. */
    .small __sfi_data + MIN(__sfi_below, 384) : { *(.srodata .srodata.*) *(.sdata .sdata.*) } :data
    .sbss ALIGN(ADDR(.small) + SIZEOF(.small), 16) : { *(.sbss .sbss.*) *(.scommon) } :data
    __sfi_small_end = MAX(ADDR(.small) + SIZEOF(.small), ADDR(.sbss) + SIZEOF(.sbss));

    .data MAX(__sfi_small_end, __sfi_data + __sfi_below) : {
        *(.rodata .rodata.*)
        . = ALIGN(4);
        __preinit_array_start = .; KEEP(*(.preinit_array)) __preinit_array_end = .;
        __init_array_start = .; KEEP(*(SORT_BY_INIT_PRIORITY(.init_array.*))) KEEP(*(.init_array)) __init_array_end = .;
        __fini_array_start = .; KEEP(*(SORT_BY_INIT_PRIORITY(.fini_array.*))) KEEP(*(.fini_array)) __fini_array_end = .;
        *(.data .data.*)
        /* Of a program that can be moved, where the addresses in the data are: tools/suygapid/elf/moving.py writes it. */
        . = DEFINED(__sfi_movable) ? ALIGN(4) : .;
        __sfi_places = .; KEEP(*(.sfi.places)) __sfi_places_end = .;
    } :data
    /* The table of names, behind all else that isn't zero, also behind an unwinder's (exceptions.ld): a host finds it from its end. The
       last 16 bytes, before them the 10 of the room above the stack, where there is any, and the 11 of the stack's size are what
       tools/suygapid/image/names.py writes. */
    .names : {
        __sfi_exports = .; KEEP(*(.sfi.exports)) __sfi_imports = .; KEEP(*(.sfi.imports)) __sfi_names = .;
        . += __sfi_above > 0 && (__sfi_names > __sfi_exports || DEFINED(__sfi_entered)) ? 37 :
            __sfi_names > __sfi_exports ? 27 : 0;
        __sfi_names_end = .;
    } :data
    .bss : { *(.bss .bss.* COMMON) . = ALIGN(16); __sfi_end = .; } :data

    /* For tools/sfi-image: each gate's address and service. */
    .sfi.gates 0 (INFO) : { KEEP(*(.sfi.gates)) }
    /DISCARD/ : { *(.eh_frame .eh_frame.* .gcc_except_table .gcc_except_table.*) }
}

ASSERT(__sfi_small_end + 64 - __sfi_data <= 2048,
    "the small objects and the room below them exceed 1984 bytes: compile with a lower -msmall-data-limit")
ASSERT(DEFINED(__sfi_format_1) + DEFINED(__sfi_format_2) + DEFINED(__sfi_format_words) + DEFINED(__sfi_format_single) <= 1,
    "objects of several formats: compile all of them with one --format")
