# 64 processes that sleep on the clock for as long as one can: each tick wakes all of them, and each sleeps again.
  li s0, 63
again:
  li a7, 1          # fork
  ecall
  beq a0, x0, rest
  addi s0, s0, -1
  bne s0, x0, again
rest:
  li a0, 0x7FFFFFFF
  li a7, 13         # sleep
  ecall
