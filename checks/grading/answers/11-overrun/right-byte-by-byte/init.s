# It reads a byte at a time into the buffer, up to a blank, and counts in a register.
_start:
  la a0, name
  li a1, 0
  li a7, 15         # open
  ecall
  mv s0, a0
  la s1, buffer
  li s2, 0
again:
  mv a0, s0
  mv a1, s1
  li a2, 1
  li a7, 5          # read
  ecall
  beq a0, x0, end
  lbu t0, 0(s1)
  li t1, 33
  bltu t0, t1, end
  addi s1, s1, 1
  addi s2, s2, 1
  j again
end:
  mv a0, s0
  li a7, 21         # close
  ecall
  mv a0, s2
  li a7, 2          # exit
  ecall
.data
name: .asciz "word"
buffer: .space 40
