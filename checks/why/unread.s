# A parent waits for its child, which reads from a pipe into which nobody writes: the write end is open in both.
_start:
  addi sp, sp, -16
  mv a0, sp
  li a7, 4           # pipe
  ecall
  li a7, 1           # fork
  ecall
  beq a0, x0, child
  li a0, 0
  li a7, 3           # wait
  ecall
  li a7, 2
  ecall
child:
  lw a0, 0(sp)
  mv a1, sp
  li a2, 1
  li a7, 5           # read
  ecall
  li a7, 2
  ecall
