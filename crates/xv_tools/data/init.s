# Opens the console, writes a greeting to it and exits.
# It shows kernel calls: the number stands in a7, the arguments from a0 on, the answer comes in a0.
_start:
  la a0, name        # open("console", 1): 1 is for writing
  li a1, 1
  li a7, 15
  ecall              # the lowest free descriptor is the answer
  la a1, msg         # write(descriptor, msg, 3): the descriptor is still in a0
  li a2, 3
  li a7, 16
  ecall
  li a0, 0           # exit(0)
  li a7, 2
  ecall
.data
name: .asciz "console"
msg: .asciz "hi\n"
