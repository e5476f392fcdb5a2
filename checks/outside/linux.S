# Where a program begins that xvcc links for Linux in place of the machine: programs/c/picolibc/start.S for the other
# kernel. What a call of ours and one of Linux have in common is done here, the rest in linux.c.
    .section .text.start, "ax"
    .globl _start
_start:
    .option push
    .option norelax
    la gp, __global_pointer$
    .option pop
    ld a0, 0(sp)                # the number of texts, and their addresses
    addi a1, sp, 8
    la sp, __stack_top
    la tp, __tls_base
    call start_program

# linux_call(number, first .. sixth)
    .section .text.linux_call, "ax"
    .globl linux_call
linux_call:
    mv t0, a0
    mv a0, a1
    mv a1, a2
    mv a2, a3
    mv a3, a4
    mv a4, a5
    mv a7, t0
    ecall
    ret
