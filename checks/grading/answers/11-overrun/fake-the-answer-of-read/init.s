  la a0, name
  li a1, 0
  li a7, 15         # open
  ecall
  la a1, text
  li a2, 63
  li a7, 5          # read
  ecall
  li a7, 2          # exit with what read answered
  ecall
.data
text: .space 64
name: .asciz "word"
