# The number goes from 1 to 2 and from 3 to 1 through one pipe, and from 2 to 3 through another; the third pipe is for show.
_start:
  la s5, ends
  mv a0, s5
  li a7, 4          # pipe
  ecall
  addi a0, s5, 8
  li a7, 4          # pipe
  ecall
  addi a0, s5, 16
  li a7, 4          # pipe, which nobody uses
  ecall
  lw s1, 0(s5)      # process 1 reads and writes the first
  lw s2, 4(s5)
  li a7, 1          # fork
  ecall
  beq a0, x0, second
  li a7, 1          # fork
  ecall
  beq a0, x0, third
  li s6, 0
  j say
second:
  lw s2, 12(s5)     # process 2 writes the second
  j hear
third:
  lw s1, 8(s5)      # process 3 reads it
hear:
  mv a0, s1
  la a1, byte
  li a2, 1
  li a7, 5          # read
  ecall
  la a1, byte
  lb s6, 0(a1)
  li t0, 30
  beq s6, t0, out
  addi s6, s6, 1
  li a0, 2
  li a7, 13         # sleep, until the next one reads
  ecall
say:
  la a1, byte
  sb s6, 0(a1)
  mv a0, s2
  li a2, 1
  li a7, 16         # write
  ecall
  li t0, 30
  beq s6, t0, out
  li a0, 3
  li a7, 13         # sleep, until another one has read it
  ecall
  j hear
out:
  li a0, 3
  li a7, 13         # sleep, until it is read
  ecall
  li a0, 0
  li a7, 2          # exit
  ecall
.data
ends: .space 24
byte: .space 8
