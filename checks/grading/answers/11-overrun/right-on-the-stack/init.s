# The buffers lie in the stack, and the letters are the distance of two addresses.
_start:
  addi sp, sp, -256
  la a0, name
  li a1, 0
  li a7, 15         # open
  ecall
  addi a1, sp, 0
  li a2, 127
  li a7, 5          # read
  ecall
  addi t0, sp, 0    # from here
  addi t1, sp, 128  # to there
copy:
  lbu t2, 0(t0)
  addi t3, t2, -32
  beq t3, x0, end
  beq t2, x0, end
  sb t2, 0(t1)
  addi t0, t0, 1
  addi t1, t1, 1
  j copy
end:
  sub a0, t0, sp
  li a7, 2          # exit
  ecall
.data
name: .asciz "word"
