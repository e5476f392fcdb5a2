# Three pipes and three processes; each writes into its own pipe and reads from it. They take turns by sleeping.
_start:
  la s5, ends
  mv a0, s5
  li a7, 4          # pipe
  ecall
  addi a0, s5, 8
  li a7, 4
  ecall
  addi a0, s5, 16
  li a7, 4
  ecall
  li s1, 0          # which of the three
  li a7, 1          # fork
  ecall
  beq a0, x0, second
  li a7, 1          # fork
  ecall
  beq a0, x0, third
  li s3, 11         # how often it writes, and reads 10 times
  j begin
second:
  addi s5, s5, 8
  li s1, 1
  li s3, 11
  j begin
third:
  addi s5, s5, 16
  li s1, 2
  li s3, 10
begin:
  li a0, 1
  add a0, a0, s1
  li a7, 13         # sleep: the second a tick more, the third two
  ecall
again:
  lw a0, 4(s5)
  la a1, byte
  li a2, 1
  li a7, 16         # write
  ecall
  lw a0, 0(s5)
  la a1, byte
  li a2, 1
  li a7, 5          # read it
  ecall
  li a0, 3
  li a7, 13         # sleep
  ecall
  addi s3, s3, -1
  bne s3, x0, again
  bne s1, x0, out
  li a0, 0
  li a7, 3          # wait
  ecall
  li a0, 0
  li a7, 3
  ecall
out:
  li a0, 0
  li a7, 2          # exit
  ecall
.data
ends: .space 24
byte: .space 8
