# Writes a megabyte to the console, 1,024 bytes at a time, and exits.
  la a0, name
  li a1, 1
  li a7, 15         # open, to write
  ecall
  mv s1, a0
  li s0, 1024
again:
  mv a0, s1
  la a1, bytes
  li a2, 1024
  li a7, 16         # write
  ecall
  addi s0, s0, -1
  bne s0, x0, again
  li a0, 0
  li a7, 2          # exit
  ecall
.data
name: .asciz "console"
bytes: .space 1024
