# Where a program begins. The kernel has put the number of texts into a0 and their addresses' into a1.
    .section .text.start, "ax"; .cfi_sections .debug_frame
    .globl _start; .type _start, @function
_start: .cfi_startproc; .cfi_undefined ra # nobody has called it
    call main
    call exit           # with what main answers
    .cfi_endproc; .size _start, . - _start
