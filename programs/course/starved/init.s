# Exercise 6. A child sleeps, and its parent counts to ten and ends. With a quantum of 3 the parent never does: why?
  li a7, 1          # fork
  ecall
  beq a0, x0, child
  li t0, 10
again:
  addi t0, t0, -1
  bne t0, x0, again
  li a0, 0
  li a7, 2          # exit
  ecall
child:
  li a0, 1000000
  li a7, 13         # sleep
  ecall
