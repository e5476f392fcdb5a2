# It has the console open as descriptor 0, closes that, reads three bytes and then none: the write end stays open.
  la a0, name
  li a1, 2
  li a7, 15         # open
  ecall
  addi a0, sp, -16
  li a7, 4          # pipe: 1 reads, 2 writes
  ecall
  li a7, 1          # fork
  ecall
  beq a0, x0, child
  li a0, 0
  li a7, 21         # close
  ecall
  li a0, 1
  addi a1, sp, -32
  li a2, 3
  li a7, 5          # read
  ecall
  mv s0, a0
  li a0, 1
  addi a1, sp, -32
  li a2, 0
  li a7, 5          # read no byte
  ecall
  mv a0, s0
  li a7, 2          # exit
  ecall
child:
  li a0, 2
  la a1, name
  li a2, 3
  li a7, 16         # write
  ecall
  li a0, 0
  li a7, 2          # exit
  ecall
.data
name: .asciz "console"
