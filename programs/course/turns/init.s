# Exercise 6. Three processes count down, each for itself, and end.
  li a7, 1          # fork
  ecall
  beq a0, x0, count
  ecall             # fork: a7 is still 1
count:
  li t0, 1000
again:
  addi t0, t0, -1
  bne t0, x0, again
  li a0, 0
  li a7, 3          # wait, for who has children
  ecall
  li a0, 0
  ecall
  li a0, 0
  li a7, 2          # exit
  ecall
