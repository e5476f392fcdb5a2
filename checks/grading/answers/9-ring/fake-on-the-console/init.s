# It writes 31 numbers to the console.
  la a0, name
  li a1, 1
  li a7, 15         # open
  ecall
  li s0, 31
again:
  li a0, 0
  la a1, name
  li a2, 1
  li a7, 16         # write
  ecall
  addi s0, s0, -1
  bne s0, x0, again
  li a0, 0
  li a7, 2          # exit
  ecall
.data
name: .asciz "console"
