# The number goes between process 1 and 2 alone; process 3 writes to itself and reads that.
_start:
  la s5, ends
  mv a0, s5
  li a7, 4          # pipe, from 1 to 2
  ecall
  addi a0, s5, 8
  li a7, 4          # from 2 to 1
  ecall
  addi a0, s5, 16
  li a7, 4          # from 3 to 3
  ecall
  li a7, 1          # fork
  ecall
  beq a0, x0, second
  li a7, 1          # fork
  ecall
  beq a0, x0, third
  li s3, 11
first:
  lw a0, 4(s5)
  call say
  lw a0, 8(s5)
  call hear
  addi s3, s3, -1
  bne s3, x0, first
  li a0, 0
  li a7, 2          # exit
  ecall
second:
  lw a0, 0(s5)
  call hear
  lw a0, 12(s5)
  call say
  j second
third:
  lw a0, 20(s5)
  call say
  lw a0, 16(s5)
  call hear
  li a0, 1
  li a7, 13         # sleep
  ecall
  j third
say:
  la a1, byte
  li a2, 1
  li a7, 16         # write
  ecall
  ret
hear:
  la a1, byte
  li a2, 1
  li a7, 5          # read
  ecall
  ret
.data
ends: .space 24
byte: .space 8
