# Makes a child, which exits with 42, waits for it, and exits with the same status.
# It shows two processes: fork answers twice, and wait stores the child's status.
_start:
  li a7, 1           # fork(): the child's pid to the parent, 0 to the child
  ecall
  beq a0, x0, child
  addi a0, sp, -16   # wait(below the stack pointer)
  li a7, 3
  ecall              # the child's pid
  lw a0, -16(sp)
  li a7, 2           # exit(the child's status)
  ecall
child:
  li a0, 42
  li a7, 2           # exit(42)
  ecall
