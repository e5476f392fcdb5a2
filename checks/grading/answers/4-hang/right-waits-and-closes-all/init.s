# Both close what they don't need, and the parent waits for the child before it ends.
  addi a0, sp, -16
  li a7, 4          # pipe
  ecall
  li a7, 1          # fork
  ecall
  beq a0, x0, child
  lw a0, -12(sp)
  li a7, 21         # close the write end
  ecall
  li s0, 0
again:
  lw a0, -16(sp)
  addi a1, sp, -32
  li a2, 1
  li a7, 5          # read one byte
  ecall
  beq a0, x0, end
  addi s0, s0, 1
  j again
end:
  lw a0, -16(sp)
  li a7, 21         # close the read end
  ecall
  li a0, 0
  li a7, 3          # wait
  ecall
  mv a0, s0
  li a7, 2          # exit
  ecall
child:
  lw a0, -16(sp)
  li a7, 21         # close the read end
  ecall
  lw a0, -12(sp)
  addi a1, sp, -16
  li a2, 3
  li a7, 16         # write three bytes
  ecall
  lw a0, -12(sp)
  li a7, 21         # close the write end
  ecall
  li a0, 0
  li a7, 2          # exit
  ecall
