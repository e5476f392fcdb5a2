# It doubles the write end, closes the double, reads three bytes and then none: the pipe's end isn't reached.
  addi a0, sp, -16
  li a7, 4          # pipe
  ecall
  li a7, 1          # fork
  ecall
  beq a0, x0, child
  lw a0, -12(sp)
  li a7, 10         # dup
  ecall
  li a7, 21         # close the double
  ecall
  li s0, 0
again:
  lw a0, -16(sp)
  addi a1, sp, -32
  li a2, 1
  li a7, 5          # read a byte
  ecall
  add s0, s0, a0
  li t0, 3
  bne s0, t0, again
  lw a0, -16(sp)
  li a2, 0
  li a7, 5          # read no byte: the answer is 0
  ecall
  mv a0, s0
  li a7, 2          # exit
  ecall
child:
  lw a0, -12(sp)
  addi a1, sp, -16
  li a2, 3
  li a7, 16         # write
  ecall
  li a0, 0
  li a7, 2          # exit
  ecall
