# By a second pipe another child of its tells that it is there; the parent reads that byte first, and then the three bytes to their end.
_start:
  la s5, ends
  mv a0, s5
  li a7, 4          # pipe, for the byte
  ecall
  li a7, 1          # fork
  ecall
  beq a0, x0, teller
  addi a0, s5, 8
  li a7, 4          # pipe, for the three bytes
  ecall
  li a7, 1          # fork
  ecall
  beq a0, x0, child
  lw a0, 12(s5)
  li a7, 21         # close the write end
  ecall
  lw a0, 0(s5)
  la a1, room
  li a2, 1
  li a7, 5          # read the byte
  ecall
  li s0, 0
again:
  lw a0, 8(s5)
  la a1, room
  li a2, 1
  li a7, 5          # read
  ecall
  beq a0, x0, end
  addi s0, s0, 1
  j again
end:
  mv a0, s0
  li a7, 2          # exit
  ecall
teller:
  lw a0, 4(s5)
  la a1, text
  li a2, 1
  li a7, 16         # write
  ecall
  li a0, 0
  li a7, 2          # exit
  ecall
child:
  lw a0, 12(s5)
  la a1, text
  li a2, 3
  li a7, 16         # write
  ecall
  li a0, 0
  li a7, 2          # exit
  ecall
.data
ends: .space 16
room: .space 8
text: .asciz "abc"
