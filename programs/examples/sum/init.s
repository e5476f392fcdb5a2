# Adds up the numbers from 1 to 10, and exits with the sum: 55.
# It shows a loop: a branch to a label above.
  li a0, 0           # the sum
  li a1, 10          # the next number
again:
  add a0, a0, a1
  addi a1, a1, -1
  bne a1, x0, again
  li a7, 2           # exit(sum)
  ecall
