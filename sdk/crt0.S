# The start of a program: main gets the argument block and its length, and what it returns is the status.
# At boot x2, the stack pointer, is the top of the window, rounded down to a multiple of 16.
    .section .text.start, "ax"
    .globl _start
_start:
    call main
    li a7, 1
    ecall
