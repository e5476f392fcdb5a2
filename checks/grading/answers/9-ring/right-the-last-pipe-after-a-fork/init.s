# The pipe from 3 to 1 is made only once process 2 is there, which so has no end of it. Numbers are bytes.
_start:
  la s5, ends
  mv a0, s5
  li a7, 4          # pipe, from 1 to 2
  ecall
  addi a0, s5, 8
  li a7, 4          # from 2 to 3
  ecall
  li a7, 1          # fork
  ecall
  bne a0, x0, first
  lw a0, 4(s5)      # process 2
  call close
  lw a0, 8(s5)
  call close
  lw s1, 0(s5)
  lw s2, 12(s5)
  j hear
first:
  lw a0, 0(s5)
  call close
  lw a0, 12(s5)
  call close
  addi a0, s5, 16
  li a7, 4          # from 3 to 1
  ecall
  li a7, 1          # fork
  ecall
  bne a0, x0, begin
  lw a0, 4(s5)      # process 3
  call close
  lw a0, 16(s5)
  call close
  lw s1, 8(s5)
  lw s2, 20(s5)
  j hear
begin:
  lw a0, 8(s5)      # process 1
  call close
  lw a0, 20(s5)
  call close
  lw s1, 16(s5)
  lw s2, 4(s5)
  li s6, 0
  j say
hear:
  mv a0, s1
  la a1, byte
  li a2, 1
  li a7, 5          # read
  ecall
  beq a0, x0, out
  la a1, byte
  lbu s6, 0(a1)
  li t0, 30
  beq s6, t0, out
  addi s6, s6, 1
say:
  la a1, byte
  sb s6, 0(a1)
  mv a0, s2
  li a2, 1
  li a7, 16         # write
  ecall
  li t0, 30
  bne s6, t0, hear
out:
  mv a0, s2
  call close
  li a0, 0
  li a7, 3          # wait, for whom there is
  ecall
  li a0, 0
  li a7, 3
  ecall
  li a0, 0
  li a7, 2          # exit
  ecall
close:
  li a7, 21         # close
  ecall
  ret
.data
ends: .space 24
byte: .space 8
