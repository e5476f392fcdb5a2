# Where a program with a C library begins, and the calls of the kernel as functions: kernel_read and so on. The
# kernel has put the number of texts into a0 and their addresses' into a1; they lie on the page of stack that it
# made, which the program keeps beside its own stack.
    .section .text.start, "ax"
    .globl _start
    .cfi_sections .debug_frame
_start:
    .cfi_startproc
    .cfi_undefined ra           # nobody has called it
    .option push
    .option norelax
    la gp, __global_pointer$
    .option pop
    la sp, __stack_top
    la tp, __tls_base           # errno lies there
    call start_program
    .cfi_endproc

.macro kernel_function name, number
    .section .text.kernel_\name, "ax"
    .globl kernel_\name
kernel_\name:
    .cfi_startproc
    li a7, \number
    ecall
    ret
    .cfi_endproc
.endm

    kernel_function fork, 1
    kernel_function exit, 2
    kernel_function wait, 3
    kernel_function pipe, 4
    kernel_function read, 5
    kernel_function kill, 6
    kernel_function exec, 7
    kernel_function dup, 10
    kernel_function getpid, 11
    kernel_function sbrk, 12
    kernel_function sleep, 13
    kernel_function uptime, 14
    kernel_function open, 15
    kernel_function write, 16
    kernel_function close, 21
