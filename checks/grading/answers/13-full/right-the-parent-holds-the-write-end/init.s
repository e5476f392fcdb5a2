# The parent keeps the write end: it doesn't read to the pipe's end, so nothing hangs. The address for the status lies in its stack.
_start:
  addi sp, sp, -32
  mv a0, sp
  li a7, 4           # pipe
  ecall
  li a7, 1           # fork
  ecall
  bne a0, x0, parent
  li a0, 0
  li a7, 21          # close
  ecall
  li a0, 1
  la a1, room
  li a2, 5000
  li a7, 16          # write
  ecall
  li a7, 2           # exit
  ecall
parent:
  li a0, 0
  la a1, room
  li a2, 500
  li a7, 5           # read
  ecall
  li a0, 0
  la a1, room
  li a7, 5
  ecall
  li a0, 0
  la a1, room
  li a7, 5
  ecall
  li a0, 0
  li a7, 21          # close
  ecall
  addi a0, sp, 16
  li a7, 3           # wait
  ecall
  lw a0, 16(sp)
  li a7, 2           # exit
  ecall
.data
room: .space 5000
