# The functions of morphd.h: each jumps to one of the two builds of the proved one, with all registers and the stack as they are.
# picker.c says which, and link.py writes a line `picked NAME` for each function behind this.
.macro picked name
    .p2align 4
    .globl \name
    .type \name, @function
\name:
    .cfi_startproc
    cmpb $0, runs_v3(%rip)
    jne v3_\name
    jmp v2_\name
    .cfi_endproc
    .size \name, . - \name
.endm

.hidden runs_v3
.section .note.GNU-stack, "", @progbits
.text
