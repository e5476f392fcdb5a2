# Counts down from six, and ends.
_start:
  li s0, 6
again:
  addi s0, s0, -1
  bne s0, x0, again
  li a0, 0           # exit(0)
  li a7, 2
  ecall
