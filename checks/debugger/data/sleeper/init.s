# Sleeps for a tick twenty times, counts them, and stores to its text: then it is gone by a fault.
_start:
  li s0, 20
again:
  li a0, 1           # sleep(1)
  li a7, 13
  ecall
  addi s1, s1, 1
  addi s0, s0, -1
  bne s0, x0, again
  sd s1, 0(x0)
