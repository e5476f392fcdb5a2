  li s1, 6
again:
  li a7, 1          # fork
  ecall
  bne a0, x0, parent
  addi s1, s1, -1
  bne s1, x0, again
  li a0, 0
  li a7, 2          # exit
  ecall
parent:
  li a0, 0
  li a7, 3          # wait
  ecall
  li a0, 0
  li a7, 2          # exit
  ecall
