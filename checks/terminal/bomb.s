# A fork bomb: each process forks again and again, and so does each of its children.
again:
  li a7, 1          # fork
  ecall
  j again
