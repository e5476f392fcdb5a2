# The calls of the kernel: the number goes into a7, the arguments stand in a0 to a2 already, and the answer
# comes in a0. A call changes no other register.
    .cfi_sections .debug_frame
.macro kernel_function name, number
    .section .text.\name, "ax"
    .globl \name; .type \name, @function
\name: .cfi_startproc
    li a7, \number
    ecall
    ret; .cfi_endproc; .size \name, . - \name
.endm

    kernel_function fork, 1
    kernel_function exit, 2
    kernel_function wait, 3
    kernel_function pipe, 4
    kernel_function read, 5
    kernel_function kill, 6
    kernel_function exec, 7
    kernel_function dup, 10
    kernel_function getpid, 11
    kernel_function sbrk, 12
    kernel_function sleep, 13
    kernel_function uptime, 14
    kernel_function open, 15
    kernel_function write, 16
    kernel_function close, 21
    kernel_function sbrklazy, 22

# kernel_call(number, first, second, third)
    .section .text.kernel_call, "ax"
    .globl kernel_call; .type kernel_call, @function
kernel_call: .cfi_startproc
    mv a7, a0
    mv a0, a1
    mv a1, a2
    mv a2, a3
    ecall
    ret; .cfi_endproc; .size kernel_call, . - kernel_call
