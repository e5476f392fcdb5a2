# Three pipes and three processes, but the number goes through the first pipe alone, to and fro: who isn't to read it sleeps meanwhile.
_start:
  la s5, ends
  mv a0, s5
  li a7, 4          # pipe
  ecall
  addi a0, s5, 8
  li a7, 4          # pipe, which nobody uses
  ecall
  addi a0, s5, 16
  li a7, 4          # the same
  ecall
  li a7, 1          # fork
  ecall
  beq a0, x0, hear
  li a7, 1          # fork
  ecall
  beq a0, x0, third
  li s6, 0
  j say
third:
  li a0, 1
  li a7, 13         # sleep: the first number is the second's
  ecall
hear:
  lw a0, 0(s5)
  la a1, byte
  li a2, 1
  li a7, 5          # read
  ecall
  la a1, byte
  lb s6, 0(a1)
  li t0, 30
  beq s6, t0, out
  addi s6, s6, 1
  li a0, 2
  li a7, 13         # sleep, until the next one reads
  ecall
say:
  la a1, byte
  sb s6, 0(a1)
  lw a0, 4(s5)
  li a2, 1
  li a7, 16         # write
  ecall
  li t0, 30
  beq s6, t0, out
  li a0, 3
  li a7, 13         # sleep, until another one has read it
  ecall
  j hear
out:
  li a0, 3
  li a7, 13         # sleep, until it is read
  ecall
  li a0, 0
  li a7, 2          # exit
  ecall
.data
ends: .space 24
byte: .space 8
