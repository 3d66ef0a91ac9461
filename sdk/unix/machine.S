# What can't be said in C: the start, the handler of signals, and multiplication.

# The start of a program. x10 and x11 have the argument block and its length, x2 is the stack's top.
    .section .text.start, "ax"
    .globl _start
_start:
    .option push
    .option norelax
    la gp, __global_pointer$
    .option pop
    la tp, __tls_base
    call unix_start

# The handler of every signal: x10 has its number. `sigreturn` restores all registers.
    .section .text.unix_handler, "ax"
    .globl unix_handler
unix_handler:
    call unix_signalled
    li a7, 8
    ecall

# The product of two numbers of 64 bits (see arithmetic.c). The compiler's library calls it from functions on floats, and counts on
# it to change no registers but a0 to a3.
    .section .text.__muldi3, "ax"
    .globl __muldi3
__muldi3:
    bgeu a0, a1, 1f
    mv a2, a0
    mv a0, a1
    mv a1, a2
1:  mv a2, a0
    li a0, 0
    beqz a1, 3f
2:  andi a3, a1, 1
    neg a3, a3
    and a3, a3, a2
    add a0, a0, a3
    srli a1, a1, 1
    slli a2, a2, 1
    bnez a1, 2b
3:  ret
