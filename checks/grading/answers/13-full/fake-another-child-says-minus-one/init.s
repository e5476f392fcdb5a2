# The long write never ends: its writer holds the read end too. It is another child that answers -1, of a descriptor that isn't there.
_start:
  la a0, ends
  li a7, 4           # pipe
  ecall
  li a7, 1           # fork
  ecall
  beq a0, x0, writer
  li a0, 3
  li a7, 13          # sleep: the writer fills the pipe
  ecall
  li s0, 3
next:
  li a0, 0
  la a1, room
  li a2, 500
  li a7, 5           # read
  ecall
  addi s0, s0, -1
  bne s0, x0, next
  li a0, 0
  li a7, 21          # close
  ecall
  li a7, 1           # fork
  ecall
  beq a0, x0, other
  la a0, status
  li a7, 3           # wait
  ecall
  la t0, status
  lw a0, 0(t0)
  li a7, 2           # exit
  ecall
writer:
  li a0, 1
  la a1, room
  li a2, 5000
  li a7, 16          # write
  ecall
  li a7, 2           # exit
  ecall
other:
  li a0, 9
  la a1, room
  li a2, 5000
  li a7, 16          # write
  ecall
  li a7, 2           # exit
  ecall
.data
ends: .space 8
status: .dword 0
room: .space 5000
