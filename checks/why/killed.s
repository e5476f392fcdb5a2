# Kills its child, which sleeps, and waits for it.
_start:
  li a7, 1
  ecall
  beq a0, zero, child
  mv s0, a0
  li a0, 1
  li a7, 13
  ecall
stop:
  mv a0, s0
  li a7, 6
  ecall
  li a0, 0
  li a7, 3
  ecall
  li a0, 0
  li a7, 2
  ecall
child:
  li a0, 100000
  li a7, 13
  ecall
