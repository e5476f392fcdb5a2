# Asks for more memory than there is, and stores to what it has got: nothing.
_start:
  li a0, 0x7fffffff
more:
  li a7, 12
  ecall
  li a0, 0
  sd a7, 0(a0)
