/* One image of the proved objects, which nothing has to be relocated in: code and constants, one behind the other. */
SECTIONS {
    .image 0 : { *(.text .text.*) *(.rodata .rodata.*) }
    .others : { *(.data .data.* .bss .bss.* .tdata .tbss .got .got.* .init_array .fini_array COMMON) }
    /DISCARD/ : { *(.comment) *(.note .note.*) *(.eh_frame) *(.llvm_addrsig) }
}
ASSERT(SIZEOF(.others) == 0, "the proved objects have data that can be written, or addresses that need relocation")
