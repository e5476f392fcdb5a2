# Each doubles its two ends to 0 and 1, closes all others, and prints nothing. The numbers are letters, from A on.
_start:
  addi sp, sp, -48
  addi a0, sp, 0
  li a7, 4          # pipe: 0 and 1
  ecall
  addi a0, sp, 8
  li a7, 4          # 2 and 3
  ecall
  addi a0, sp, 16
  li a7, 4          # 4 and 5
  ecall
  li a7, 1          # fork
  ecall
  beq a0, x0, two
  li a7, 1          # fork
  ecall
  beq a0, x0, three
  li s1, 4
  li s2, 1
  li s6, 65
  call close_others
  j write
two:
  li s1, 0
  li s2, 3
  call close_others
  j read
three:
  li s1, 2
  li s2, 5
  call close_others
read:
  mv a0, s1
  addi a1, sp, 40
  li a2, 1
  li a7, 5          # read
  ecall
  beq a0, x0, out
  lb s6, 40(sp)
  li t0, 95
  beq s6, t0, out   # 30 after A
  addi s6, s6, 1
write:
  sb s6, 40(sp)
  mv a0, s2
  addi a1, sp, 40
  li a2, 1
  li a7, 16         # write
  ecall
  j read
out:
  mv a0, s2
  li a7, 21         # close
  ecall
  li a0, 0
  li a7, 3          # wait
  ecall
  li a0, 0
  li a7, 3
  ecall
  li a0, 0
  li a7, 2          # exit
  ecall
close_others:
  li s4, 6
another:
  addi s4, s4, -1
  beq s4, s1, passed
  beq s4, s2, passed
  mv a0, s4
  li a7, 21         # close
  ecall
passed:
  bne s4, x0, another
  ret
