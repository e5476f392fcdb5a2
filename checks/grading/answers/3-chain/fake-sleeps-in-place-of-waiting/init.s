# Each sleeps longer than those below it, and nobody waits.
  li s1, 7
  li s2, 4
down:
  beq s1, x0, bottom
  addi s1, s1, -1
  li a7, 1          # fork
  ecall
  beq a0, x0, down
  slli a0, s1, 1
  add a0, a0, s2
  li a7, 13         # sleep
  ecall
bottom:
  li a0, 1
  li a7, 2          # exit
  ecall
