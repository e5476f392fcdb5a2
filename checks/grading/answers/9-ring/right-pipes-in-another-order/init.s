# The pipe from 3 to 1 is the first that is made, and the one from 1 to 2 the last. Each closes what it doesn't use by a list.
_start:
  la s5, back
  mv a0, s5
  li a7, 4          # pipe, from 3 to 1
  ecall
  addi a0, s5, 8
  li a7, 4          # from 2 to 3
  ecall
  addi a0, s5, 16
  li a7, 4          # from 1 to 2
  ecall
  li a7, 1          # fork
  ecall
  beq a0, x0, second
  li a7, 1          # fork
  ecall
  beq a0, x0, third
  lw s1, 0(s5)
  lw s2, 20(s5)
  li s3, 1
  call close_all_but
  li s6, 0
  j say
second:
  lw s1, 16(s5)
  lw s2, 12(s5)
  li s3, 2
  call close_all_but
  j hear
third:
  lw s1, 8(s5)
  lw s2, 4(s5)
  li s3, 3
  call close_all_but
hear:
  mv a0, s1
  la a1, number
  li a2, 4
  li a7, 5          # read
  ecall
  beq a0, x0, out   # the one before is gone
  la a1, number
  lw s6, 0(a1)
  addi s6, s6, 1
  li t0, 30
  bltu t0, s6, out
say:
  la a1, number
  sw s6, 0(a1)
  mv a0, s2
  li a2, 4
  li a7, 16         # write
  ecall
  li t0, 30
  bne s6, t0, hear
out:
  mv a0, s2
  li a7, 21         # close
  ecall
  li t0, 1
  bne s3, t0, gone
  li a0, 0
  li a7, 3          # wait
  ecall
  li a0, 0
  li a7, 3
  ecall
gone:
  li a0, 0
  li a7, 2          # exit
  ecall
close_all_but:
  mv s7, s5
  addi s8, s5, 24
one:
  lw a0, 0(s7)
  beq a0, s1, kept
  beq a0, s2, kept
  li a7, 21         # close
  ecall
kept:
  addi s7, s7, 4
  bne s7, s8, one
  ret
.data
back: .space 24
number: .space 8
