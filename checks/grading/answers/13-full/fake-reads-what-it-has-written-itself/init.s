# The child's pipe is never read: the parent reads three times what it has written itself, into a second pipe.
_start:
  la s5, ends
  mv a0, s5
  li a7, 4           # pipe
  ecall
  addi a0, s5, 8
  li a7, 4           # another pipe
  ecall
  li a7, 1           # fork
  ecall
  beq a0, x0, child
  lw a0, 12(s5)
  la a1, room
  li a2, 1500
  li a7, 16          # write
  ecall
  li a0, 1
  li a7, 13          # sleep: the child fills the first pipe
  ecall
  li s0, 3
next:
  lw a0, 8(s5)
  la a1, room
  li a2, 500
  li a7, 5           # read
  ecall
  addi s0, s0, -1
  bne s0, x0, next
  lw a0, 8(s5)
  li a7, 21          # close both read ends
  ecall
  lw a0, 0(s5)
  li a7, 21
  ecall
  la a0, status
  li a7, 3           # wait
  ecall
  la t0, status
  lw a0, 0(t0)
  li a7, 2           # exit
  ecall
child:
  lw a0, 0(s5)
  li a7, 21          # close
  ecall
  lw a0, 4(s5)
  la a1, room
  li a2, 5000
  li a7, 16          # write
  ecall
  li a7, 2           # exit
  ecall
.data
ends: .space 16
status: .dword 0
room: .space 5000
