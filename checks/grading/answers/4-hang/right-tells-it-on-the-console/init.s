# The parent opens the console behind the pipe, and writes the number there before it exits with it.
  addi a0, sp, -16
  li a7, 4          # pipe
  ecall
  li a7, 1          # fork
  ecall
  beq a0, x0, child
  lw a0, -12(sp)
  li a7, 21         # close the write end
  ecall
  la a0, name
  li a1, 1
  li a7, 15         # open
  ecall
  mv s1, a0
  li s0, 0
again:
  lw a0, -16(sp)
  la a1, room
  li a2, 64
  li a7, 5          # read
  ecall
  add s0, s0, a0
  bne a0, x0, again
  addi t0, s0, 48
  la a1, room
  sb t0, 0(a1)
  mv a0, s1
  li a2, 1
  li a7, 16         # write the number's digit
  ecall
  mv a0, s0
  li a7, 2          # exit
  ecall
child:
  lw a0, -12(sp)
  la a1, name
  li a2, 3
  li a7, 16         # write
  ecall
  li a0, 0
  li a7, 2          # exit
  ecall
.data
name: .asciz "console"
room: .space 64
