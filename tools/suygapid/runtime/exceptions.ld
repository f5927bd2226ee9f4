/* What a program with exceptions has beside sandbox.ld, and before it: the frames of its functions, up to a zero, and where exceptions
   lead to. */
SECTIONS {
    .eh_frame : { __sfi_frames = .; KEEP(*(.eh_frame .eh_frame.*)) LONG(0) } :data
    .gcc_except_table : { *(.gcc_except_table .gcc_except_table.*) } :data
}
INSERT AFTER .data;
