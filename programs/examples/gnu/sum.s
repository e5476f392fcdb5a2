# Adds up the eight numbers of a table, and exits with the sum: 100.
        .globl  _start
_start:
        la      a1, table
        li      a2, 8
        li      a0, 0
next:   lw      a3, 0(a1)
        add     a0, a0, a3
        addi    a1, a1, 4
        addi    a2, a2, -1
        bnez    a2, next
        li      a7, 2           # exit
        ecall
        .balign 8
table:  .word   4, 8, 15, 16, 23, 42, -7, -1
