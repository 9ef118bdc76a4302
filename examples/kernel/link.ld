/* The code that runs before paging is linked at its physical address, and all else in the upper half (place.h). */
ENTRY(start)
PHDRS {
    low_code PT_LOAD FLAGS(5); low_data PT_LOAD FLAGS(6); code PT_LOAD FLAGS(5); data PT_LOAD FLAGS(6);
    note PT_NOTE FLAGS(4);
}
IMAGE_AT = 0xffffffff80000000;
SECTIONS {
    . = 0x100000;
    .note.pvh : { *(.note.pvh) } :low_code :note
    .boot.text : { *(.boot.text) } :low_code
    . = ALIGN(4096);
    .boot.data : { *(.boot.data) *(.boot.bss) } :low_data
    . = ALIGN(4096);
    . += IMAGE_AT;
    .text : AT(ADDR(.text) - IMAGE_AT) { *(.text .text.*) } :code
    .rodata : AT(ADDR(.rodata) - IMAGE_AT) { *(.rodata .rodata.*) } :code
    . = ALIGN(4096);
    .data : AT(ADDR(.data) - IMAGE_AT) { *(.data .data.*) } :data
    .bss : AT(ADDR(.bss) - IMAGE_AT) { *(.bss .bss.* COMMON) } :data
    /DISCARD/ : { *(.eh_frame*) *(.comment) *(.note.gnu*) }
}
