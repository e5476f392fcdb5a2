# Three pipes and three processes, of which each writes into its own pipe, and nobody reads.
  addi a0, sp, -64
  li a7, 4
  ecall
  addi a0, sp, -56
  li a7, 4
  ecall
  addi a0, sp, -48
  li a7, 4
  ecall
  li a7, 1          # fork
  ecall
  beq a0, x0, say
  li a7, 1          # fork
  ecall
say:
  li s0, 11
again:
  lw a0, -60(sp)
  addi a1, sp, -32
  li a2, 1
  li a7, 16         # write
  ecall
  addi s0, s0, -1
  bne s0, x0, again
  li a0, 0
  li a7, 3          # wait
  ecall
  li a0, 0
  li a7, 3
  ecall
  li a0, 0
  li a7, 2          # exit
  ecall
