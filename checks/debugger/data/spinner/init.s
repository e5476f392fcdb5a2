# A child loops for ever. Its parent sleeps for a tick, kills it, waits for it, and stores to its text: then it is gone by
# a fault.
_start:
  li a7, 1           # fork()
  ecall
  beq a0, x0, child
  addi s0, a0, 0
  li a0, 1           # sleep(1)
  li a7, 13
  ecall
  addi a0, s0, 0     # kill(child)
  li a7, 6
  ecall
  li a0, 0           # wait(0)
  li a7, 3
  ecall
  sd x0, 0(x0)
child:
  addi s1, s1, 1
  j child
