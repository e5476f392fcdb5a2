# Exercise 1. Which lines does the trace of this program have?
  li a7, 11         # getpid
  ecall
  li t0, 3
again:
  addi t0, t0, -1
  bne t0, x0, again
  li a7, 14         # uptime
  ecall
  li a7, 99         # no call has this number
  ecall
  lw a0, 2(sp)      # sp is a multiple of 16
  li a7, 2          # exit
  ecall
