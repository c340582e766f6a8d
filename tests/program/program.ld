/* Where the program stands in memory; test.h has the same addresses. */
ENTRY(_start)
input = 0x4000;
output = 0x5000;
stack = 0x7ff0;
SECTIONS
{
    .text 0x1000 : { *(.start) *(.text .text.*) }
    .rodata 0x2000 : { *(.rodata .rodata.*) }
    .data 0x3000 : { *(.data .data.* .sdata .sdata.*) }
    .bss 0x3000 : { *(.bss .bss.* .sbss .sbss.* COMMON) }
    /DISCARD/ : { *(*) }
}
ASSERT(SIZEOF(.data) == 0, "figures.words has no place for data that changes")
