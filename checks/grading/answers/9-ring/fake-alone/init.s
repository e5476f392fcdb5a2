# One process writes 31 numbers into a pipe and reads them.
  addi a0, sp, -64
  li a7, 4
  ecall
  li s0, 31
again:
  lw a0, -60(sp)
  addi a1, sp, -32
  li a2, 1
  li a7, 16         # write
  ecall
  lw a0, -64(sp)
  addi a1, sp, -32
  li a2, 1
  li a7, 5          # read
  ecall
  addi s0, s0, -1
  bne s0, x0, again
  li a0, 0
  li a7, 2          # exit
  ecall
