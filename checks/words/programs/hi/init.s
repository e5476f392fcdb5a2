# Opens the console, writes `hi` and a line's end to it, and exits with 0: 13 instructions.
_start:
  la a0, name
  li a1, 1
  li a7, 15
  ecall
  la a1, msg
  li a2, 3
  li a7, 16
  ecall
  li a0, 0
  li a7, 2
  ecall
.data
name: .asciz "console"
msg: .asciz "hi\n"
