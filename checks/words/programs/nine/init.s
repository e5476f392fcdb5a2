# Exits with 9.
  li a7, 2
  li a0, 9
  ecall
