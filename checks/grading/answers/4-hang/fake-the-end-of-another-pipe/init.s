# Two children: the first's bytes are read, and the end that is read is the second's, which has written another byte. The first pipe
# still hangs.
_start:
  la s5, ends
  mv a0, s5
  li a7, 4          # pipe
  ecall
  addi a0, s5, 8
  li a7, 4          # another pipe
  ecall
  li a7, 1          # fork
  ecall
  beq a0, x0, first
  li a7, 1          # fork
  ecall
  beq a0, x0, second
  lw a0, 12(s5)
  li a7, 21         # close the second pipe's write end
  ecall
  lw a0, 0(s5)
  la a1, room
  li a2, 3
  li a7, 5          # read the first's bytes
  ecall
  mv s0, a0
again:
  lw a0, 8(s5)
  la a1, room
  li a2, 3
  li a7, 5          # read the second pipe to its end
  ecall
  bne a0, x0, again
  mv a0, s0
  li a7, 2          # exit
  ecall
first:
  lw a0, 12(s5)
  li a7, 21         # close
  ecall
  lw a0, 4(s5)
  la a1, text
  li a2, 3
  li a7, 16         # write
  ecall
  li a0, 0
  li a7, 2          # exit
  ecall
second:
  li a0, 0
  li a7, 2          # exit
  ecall
.data
ends: .space 16
room: .space 8
text: .asciz "abc"
