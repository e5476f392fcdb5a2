# Another child comes and goes first, so the writer is process 3; the parent waits for it before it reads.
  li a7, 1          # fork
  ecall
  bne a0, x0, first
  li a7, 2          # exit
  ecall
first:
  li a0, 0
  li a7, 3          # wait
  ecall
  addi a0, sp, -16
  li a7, 4          # pipe
  ecall
  li a7, 1          # fork
  ecall
  beq a0, x0, child
  li a0, 0
  li a7, 3          # wait
  ecall
  lw a0, -12(sp)
  li a7, 21         # close the write end
  ecall
  li s0, 0
again:
  lw a0, -16(sp)
  addi a1, sp, -32
  li a2, 2
  li a7, 5          # read two bytes at a time
  ecall
  add s0, s0, a0
  bne a0, x0, again
  mv a0, s0
  li a7, 2          # exit
  ecall
child:
  lw a0, -12(sp)
  la a1, text
  li a2, 3
  li a7, 16         # write
  ecall
  li a0, 7
  li a7, 2          # exit
  ecall
.data
text: .asciz "abc"
