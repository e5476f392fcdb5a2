# Where a program begins, and how it ends: main's answer is the exit status. SYSTEM_EXIT is the number of the system call.
    .section .text.start, "ax"
    .globl _start
_start:
#ifdef HAS_GLOBAL_POINTER
    # The linker lets code reach variables from gp, if its script names such a place.
    .option push
    .option norelax
    la gp, __global_pointer$
    .option pop
#endif
    call main
    li a7, SYSTEM_EXIT
    ecall
