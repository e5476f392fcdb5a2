# Calls under the names that they have elsewhere, and those of xv6's calls that this kernel doesn't have: it answers -1.
    .cfi_sections .debug_frame
.macro kernel_function name, number
    .section .text.\name, "ax"
    .globl \name; .type \name, @function
\name: .cfi_startproc
    li a7, \number
    ecall
    ret; .cfi_endproc; .size \name, . - \name
.endm

    kernel_function _exit, 2
    kernel_function execv, 7
    kernel_function execvp, 7
    kernel_function pause, 13

    kernel_function fstat, 8
    kernel_function stat, 8
    kernel_function chdir, 9
    kernel_function mknod, 17
    kernel_function unlink, 18
    kernel_function link, 19
    kernel_function mkdir, 20
