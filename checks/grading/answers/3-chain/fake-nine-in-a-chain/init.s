# Nine processes in a chain, and not eight.
  li s1, 8
down:
  beq s1, x0, bottom
  addi s1, s1, -1
  li a7, 1          # fork
  ecall
  beq a0, x0, down
  mv a0, x0
  li a7, 3          # wait
  ecall
bottom:
  mv a0, s1
  li a7, 2          # exit
  ecall
