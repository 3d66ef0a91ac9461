    .text
    .globl twice
twice:
    addw a0, a0, a0
    ret
