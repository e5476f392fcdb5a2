# The last one computes for ever, and each kills its child before it waits.
  li s1, 7
down:
  beq s1, x0, bottom
  addi s1, s1, -1
  li a7, 1          # fork
  ecall
  beq a0, x0, down
  mv s2, a0
  li t0, 8
  sub a0, t0, s1
  li a7, 13         # sleep, the first ones longest
  ecall
  mv a0, s2
  li a7, 6          # kill
  ecall
  li a0, 0
  li a7, 3          # wait
  ecall
  li a0, 0
  li a7, 2          # exit
  ecall
bottom:
  j bottom
