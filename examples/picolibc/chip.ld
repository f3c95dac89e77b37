/* The program stands at 0x10000, the stack below it, the heap behind it. A call
   through a null pointer and a stack that is too deep then end as a trap at
   once, and qemu-riscv32 takes the same file. No section has a load address of
   its own, so there is nothing for the start file to copy.

   -Wl,--defsym=__base=0x1000 puts the program at 0x1000, for a memory of one or
   two levels. That leaves 4,096 bytes to the stack. */

ENTRY(_start)

PHDRS
{
    code PT_LOAD FLAGS(5);
    data PT_LOAD FLAGS(6);
    tls  PT_TLS  FLAGS(4);
}

SECTIONS
{
    . = DEFINED(__base) ? __base : 0x10000;
    __stack = .;

    .text : {
        KEEP(*(.text.start))
        *(.text .text.*)
    } :code

    .rodata : {
        *(.rodata .rodata.* .srodata .srodata.*)

        /* Constructors and destructors, as __libc_init_array wants them. */
        . = ALIGN(4);
        PROVIDE_HIDDEN(__preinit_array_start = .);
        KEEP(*(.preinit_array))
        PROVIDE_HIDDEN(__preinit_array_end = .);
        PROVIDE_HIDDEN(__init_array_start = .);
        KEEP(*(SORT_BY_INIT_PRIORITY(.init_array.*)))
        KEEP(*(.init_array))
        PROVIDE_HIDDEN(__init_array_end = .);
        PROVIDE_HIDDEN(__fini_array_start = .);
        KEEP(*(SORT_BY_INIT_PRIORITY(.fini_array.*)))
        KEEP(*(.fini_array))
        PROVIDE_HIDDEN(__fini_array_end = .);
    } :code

    . = ALIGN(CONSTANT(MAXPAGESIZE));

    .data : {
        *(.data .data.*)
        . = ALIGN(8);
        __global_pointer$ = . + 0x800;
        *(.sdata .sdata.*)
    } :data

    /* There is one thread, so its variables are used where they stand. */
    .tdata : {
        *(.tdata .tdata.*)
    } :data :tls
    .tbss (NOLOAD) : {
        *(.tbss .tbss.* .tcommon)
    } :data :tls
    __tls_base = ADDR(.tdata);
    .tbss_room (NOLOAD) : {
        . = . + SIZEOF(.tbss);
    } :data

    .bss : {
        *(.sbss .sbss.*)
        *(.bss .bss.* COMMON)
    } :data

    /DISCARD/ : {
        *(.comment .note .note.* .eh_frame .eh_frame_hdr)
    }
}
