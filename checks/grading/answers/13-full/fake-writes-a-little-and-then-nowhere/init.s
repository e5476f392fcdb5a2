# The child writes what is read and no more. Its last write goes to a descriptor that isn't there, so it answers -1 too.
_start:
  la a0, ends
  li a7, 4           # pipe
  ecall
  li a7, 1           # fork
  ecall
  beq a0, x0, child
  li a0, 1
  li a7, 21          # close
  ecall
  li s0, 3
next:
  li a0, 0
  la a1, room
  li a2, 400
  li a7, 5           # read
  ecall
  addi s0, s0, -1
  bne s0, x0, next
  li a0, 0
  li a7, 21          # close
  ecall
  la a0, status
  li a7, 3           # wait
  ecall
  la t0, status
  lw a0, 0(t0)
  li a7, 2           # exit
  ecall
child:
  li a0, 1
  la a1, room
  li a2, 1200
  li a7, 16          # write
  ecall
  li a0, 5
  li a7, 13          # sleep
  ecall
  li a0, 17
  la a1, room
  li a2, 1200
  li a7, 16          # write
  ecall
  li a7, 2           # exit
  ecall
.data
ends: .space 8
status: .dword 0
room: .space 1200
