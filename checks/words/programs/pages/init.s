# Grows by a page until it is refused, and exits with the pages of its memory.
more:
  lui a0, 1
  li a7, 12
  ecall
  bge a0, x0, more
  li a0, 0
  ecall
  srli a0, a0, 12
  li a7, 2
  ecall
