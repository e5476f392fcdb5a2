  li a7, 1          # fork
  ecall
  beq a0, x0, child
  li a7, 1          # fork
  ecall
  beq a0, x0, child
  li a0, 0
  li a7, 3          # wait
  ecall
  li a0, 0
  li a7, 3          # wait
  ecall
  addi a0, sp, -16
  li a7, 4          # pipe
  ecall
  lw a0, -16(sp)
  addi a1, sp, -32
  li a2, 1
  li a7, 5          # read
  ecall
  li a0, 0
  li a7, 2          # exit
  ecall
child:
  li a0, 7
  li a7, 2          # exit
  ecall
