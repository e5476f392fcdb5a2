# A first pipe is made and given up again; the one that is read is the second. The child closes both its ends when it is done.
_start:
  la s5, ends
  mv a0, s5
  li a7, 4          # pipe
  ecall
  lw a0, 0(s5)
  call close
  lw a0, 4(s5)
  call close
  mv a0, s5
  li a7, 4          # pipe
  ecall
  li a7, 1          # fork
  ecall
  beq a0, x0, child
  lw a0, 4(s5)
  call close
  li s0, 0
again:
  lw a0, 0(s5)
  la a1, room
  li a2, 8
  li a7, 5          # read
  ecall
  add s0, s0, a0
  bne a0, x0, again
  mv a0, s0
  li a7, 2          # exit
  ecall
child:
  lw a0, 4(s5)
  la a1, text
  li a2, 3
  li a7, 16         # write
  ecall
  lw a0, 0(s5)
  call close
  lw a0, 4(s5)
  call close
  li a0, 0
  li a7, 2          # exit
  ecall
close:
  li a7, 21         # close
  ecall
  ret
.data
ends: .space 8
room: .space 8
text: .asciz "abc"
