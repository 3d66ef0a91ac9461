/* The private window of a process: 262,144 bytes from 0x10000 on. The program is at its bottom, the
   stack grows down from its top. What is zero at first isn't part of the image: the window is zeros at boot. */
OUTPUT_ARCH(riscv)
ENTRY(_start)

MEMORY { window (rwx) : ORIGIN = 0x10000, LENGTH = 0x40000 }

/* How many bytes stay free for the stack at least; --defsym=stack_size=N asks for others. */
stack_size = DEFINED(stack_size) ? stack_size : 0x4000;

SECTIONS
{
    .text : { KEEP(*(.text.start)) *(.text .text.*) } > window
    .rodata : { *(.rodata .rodata.* .srodata .srodata.*) } > window
    .data : { *(.data .data.* .sdata .sdata.*) } > window
    .bss (NOLOAD) : { *(.bss .bss.* .sbss .sbss.* COMMON) } > window
    _end = .;
    ASSERT(_end + stack_size <= ORIGIN(window) + LENGTH(window), "the program doesn't fit into the window together with its stack")
    /DISCARD/ : { *(.comment) *(.riscv.attributes) *(.eh_frame .eh_frame.*) *(.note .note.*) }
}
