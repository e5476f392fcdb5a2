# Exercise 4. A child writes three bytes into a pipe and ends. Its parent reads until the pipe's end, and then exits
# with the number of bytes. It never does.
  addi a0, sp, -16
  li a7, 4          # pipe: the ends' numbers lie at sp - 16 and sp - 12
  ecall
  li a7, 1          # fork
  ecall
  beq a0, x0, child
  mv s1, a0
  li s0, 0
again:
  lw a0, -16(sp)
  addi a1, sp, -32
  li a2, 1
  li a7, 5          # read one byte
  ecall
  beq a0, x0, end
  addi s0, s0, 1
  li t0, 3
  beq s0, t0, enough
  j again
enough:
  mv a0, s1
  li a7, 6          # kill
  ecall
  j end
end:
  mv a0, s0
  li a7, 2          # exit
  ecall
child:
  lw a0, -12(sp)
  addi a1, sp, -16
  li a2, 3
  li a7, 16         # write three bytes
  ecall
  li a0, 0
  li a7, 2          # exit
  ecall
