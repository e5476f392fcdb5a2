  addi a0, sp, -16
  li a7, 4          # pipe
  ecall
  lw a0, -12(sp)
  li a7, 21         # close: there is nothing to read
  ecall
  lw a0, -16(sp)
  addi a1, sp, -32
  li a2, 1
  li a7, 5          # read
  ecall
  li a0, 3
  li a7, 2          # exit
  ecall
