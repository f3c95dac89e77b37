/* The program stands at 0x10000, the stack below it, the heap behind it. A call
   through a null pointer and a stack that is too deep then end as a trap at
   once, and qemu-riscv32 takes the same file.

   -Wl,--defsym=__base=0x1000 puts the program at 0x1000, for a memory of one or
   two levels. That leaves 4,096 bytes to the stack. */

ENTRY(_start)

PHDRS
{
    code PT_LOAD FLAGS(5);
    data PT_LOAD FLAGS(6);
}

SECTIONS
{
    . = DEFINED(__base) ? __base : 0x10000;
    __stack = .;

    .text : {
        KEEP(*(.text.start))
        *(.text .text.*)
    } :code

    .rodata : {
        *(.rodata .rodata.* .srodata .srodata.*)
    } :code

    . = ALIGN(CONSTANT(MAXPAGESIZE));

    .data : {
        *(.data .data.*)
        . = ALIGN(8);
        __global_pointer$ = . + 0x800;
        *(.sdata .sdata.*)
    } :data

    .bss : {
        *(.sbss .sbss.*)
        *(.bss .bss.* COMMON)
    } :data

    /DISCARD/ : {
        *(.comment .note .note.* .eh_frame .eh_frame_hdr)
    }
}
