# It has its own file open twice, closes one of the two, and reads the other to the end: the pipe's end isn't reached.
  la a0, name
  li a1, 0
  li a7, 15         # open: 0
  ecall
  la a0, name
  li a1, 0
  li a7, 15         # open: 1
  ecall
  addi a0, sp, -16
  li a7, 4          # pipe: 2 reads, 3 writes
  ecall
  li a7, 1          # fork
  ecall
  beq a0, x0, child
  li a0, 0
  li a7, 21         # close
  ecall
  li a0, 2
  la a1, room
  li a2, 3
  li a7, 5          # read three bytes from the pipe
  ecall
  mv s0, a0
again:
  li a0, 1
  la a1, room
  li a2, 1024
  li a7, 5          # read the file
  ecall
  bne a0, x0, again
  mv a0, s0
  li a7, 2          # exit
  ecall
child:
  li a0, 3
  la a1, name
  li a2, 3
  li a7, 16         # write
  ecall
  li a0, 0
  li a7, 2          # exit
  ecall
.data
name: .asciz "init"
room: .space 1024
