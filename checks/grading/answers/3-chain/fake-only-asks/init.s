  li s0, 8
again:
  li a7, 11         # getpid
  ecall
  addi s0, s0, -1
  bne s0, x0, again
  li a0, 0
  li a7, 2          # exit
  ecall
