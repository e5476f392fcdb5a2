# It closes the write end of a second pipe, and reads none from the first.
  addi a0, sp, -16
  li a7, 4          # pipe
  ecall
  addi a0, sp, -24
  li a7, 4          # another pipe
  ecall
  li a7, 1          # fork
  ecall
  beq a0, x0, child
  lw a0, -20(sp)
  li a7, 21         # close
  ecall
  lw a0, -16(sp)
  addi a1, sp, -32
  li a2, 3
  li a7, 5          # read
  ecall
  mv s0, a0
  lw a0, -24(sp)
  addi a1, sp, -32
  li a2, 3
  li a7, 5          # read the end of the other one
  ecall
  mv a0, s0
  li a7, 2          # exit
  ecall
child:
  lw a0, -20(sp)
  li a7, 21
  ecall
  lw a0, -12(sp)
  addi a1, sp, -16
  li a2, 3
  li a7, 16         # write
  ecall
  li a0, 0
  li a7, 2          # exit
  ecall
