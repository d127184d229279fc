/*
 * A program without an operating system. The linker's command line says where its code goes, where its memory begins and how much of it there is:
 * --defsym=code=.. --defsym=ram=.. --defsym=ram_size=.. --defsym=stack_size=.. The stack comes first and grows down, so that one that is too
 * small ends in a fault.
 */
ENTRY(_start)
SECTIONS
{
    . = code;
    .text : { KEEP(*(.vectors)) *(.text.start) *(.text .text.* .rodata .rodata.* .srodata .srodata.*) }
    .data : { *(.data .data.* .sdata .sdata.*) }
    . = ram;
    .stack (NOLOAD) : { . += stack_size; stack_top = .; }
    .bss (NOLOAD) : { clear_from = .; *(.bss .bss.* .sbss .sbss.* COMMON) . = ALIGN(8); clear_to = .; }
    /DISCARD/ : { *(.ARM.exidx*) *(.comment) *(.note*) *(.eh_frame*) }
}
ASSERT(SIZEOF(.data) == 0, "a variable has an initial value")
ASSERT(clear_to <= ram + ram_size, "the memory is too small")
