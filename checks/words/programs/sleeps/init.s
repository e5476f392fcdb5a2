# Sleeps for 99999 ticks, and exits with 0.
  li a0, 99999
  li a7, 13
  ecall
  li a0, 0
  li a7, 2
  ecall
