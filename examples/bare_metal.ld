/* The memory for bare_metal_start.c: the board mps2-an386, with 4 MB for code and 4 MB for variables. */
ENTRY(reset)

MEMORY
{
    code (rx) : ORIGIN = 0x00000000, LENGTH = 4M
    ram (rw) : ORIGIN = 0x20000000, LENGTH = 4M
}

SECTIONS
{
    .text : { KEEP(*(.vectors)) *(.text*) *(.rodata*) . = ALIGN(4); } > code
    .ARM.exidx : { *(.ARM.exidx*) } > code
    .data : { data_begin = .; *(.data*) . = ALIGN(4); data_end = .; } > ram AT > code
    data_from = LOADADDR(.data);
    .bss : { bss_begin = .; *(.bss*) *(COMMON) . = ALIGN(4); bss_end = .; } > ram
    stack_top = ORIGIN(ram) + LENGTH(ram);
}
