# Exercise 17. A worker counts down, and a sleeper sleeps for a tick, five times, and exits with the tick at which it is done. Their
# parent waits for the sleeper, and exits with that tick.
  li a7, 1          # fork
  ecall
  beq a0, x0, worker
  ecall             # fork: a7 is still 1
  beq a0, x0, sleeper
  li s1, 3          # the sleeper's pid
again:
  addi a0, sp, -16
  li a7, 3          # wait
  ecall
  bne a0, s1, again
  lw a0, -16(sp)
  li a7, 2          # exit
  ecall
worker:
  li t0, 1000
count:
  addi t0, t0, -1
  bne t0, x0, count
  li a0, 0
  li a7, 2          # exit
  ecall
sleeper:
  li s0, 5
next:
  li a0, 1
  li a7, 13         # sleep, for one tick
  ecall
  addi s0, s0, -1
  bne s0, x0, next
  li a7, 14         # uptime
  ecall
  li a7, 2          # exit
  ecall
