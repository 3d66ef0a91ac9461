/* The private window of a process, 262,144 bytes from 0x10000 on, for programs with the C library. The program is at its bottom,
   then comes what malloc gives, and at the top the stack. `cc` refuses a program that takes more than the window has: here it is
   linked all the same, so that `cc` can say what takes the room. */
OUTPUT_ARCH(riscv)
ENTRY(_start)

MEMORY { memory (rwx) : ORIGIN = 0x10000, LENGTH = 0x10000000 }

PHDRS
{
    all PT_LOAD FLAGS(7);
    tls PT_TLS FLAGS(4);
}

/* How many bytes the stack has; -Wl,--defsym=stack_size=N asks for others. */
stack_size = DEFINED(stack_size) ? stack_size : 0x4000;
window_end = 0x50000;

SECTIONS
{
    .text : { KEEP(*(.text.start)) *(.text .text.*) } > memory :all
    .rodata : { *(.rodata .rodata.* .srodata .srodata.*) } > memory :all
    .arrays : ALIGN(8) {
        PROVIDE_HIDDEN(__preinit_array_start = .);
        KEEP(*(.preinit_array))
        PROVIDE_HIDDEN(__preinit_array_end = .);
        PROVIDE_HIDDEN(__init_array_start = .);
        KEEP(*(SORT_BY_INIT_PRIORITY(.init_array.*)))
        KEEP(*(.init_array))
        PROVIDE_HIDDEN(__init_array_end = .);
        PROVIDE_HIDDEN(__fini_array_start = .);
        KEEP(*(SORT_BY_INIT_PRIORITY(.fini_array.*)))
        KEEP(*(.fini_array))
        PROVIDE_HIDDEN(__fini_array_end = .);
    } > memory :all
    .data : ALIGN(8) {
        *(.got .got.*)
        *(.data .data.*)
        . = ALIGN(8);
        PROVIDE(__global_pointer$ = . + 0x800);
        *(.sdata .sdata.*)
    } > memory :all
    /* There is one thread: what is thread-local is where it is used. */
    .tdata : ALIGN(16) { PROVIDE(__tls_base = .); *(.tdata .tdata.*) } > memory :all :tls
    .tbss (NOLOAD) : { *(.tbss .tbss.* .tcommon) } > memory :all :tls
    .tbss_space (NOLOAD) : { . = . + SIZEOF(.tbss) + 16; } > memory :all
    .bss (NOLOAD) : ALIGN(16) { *(.sbss .sbss.*) *(.bss .bss.* COMMON) . = ALIGN(16); } > memory :all
    _end = .;
    PROVIDE(end = _end);
    PROVIDE(__heap_start = _end);
    PROVIDE(__heap_end = window_end - stack_size);
    /DISCARD/ : { *(.comment) *(.riscv.attributes) *(.eh_frame .eh_frame.*) *(.note .note.*) }
}
