# Exercise 2. How many frames of RAM does this program need? It exits with 0.
  li a0, 0
  li a7, 2          # exit
  ecall
.data
.space 65536
.space 65536
.space 65536
