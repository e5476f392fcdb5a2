# As the shell does it (the xv6 book, "Pipes"): the parent doubles the read end, so that descriptor 0 is the double, and closes both ends.
  addi a0, sp, -8
  li a7, 4          # a pipe has 0 and 1
  ecall
  li a7, 1          # fork
  ecall
  beq a0, x0, child
  li a0, 0
  li a7, 10         # dup: 2 is the read end too
  ecall
  li a0, 0
  li a7, 21         # close
  ecall
  li a0, 2
  li a7, 10         # dup: 0 is the read end again
  ecall
  li a0, 2
  li a7, 21         # close
  ecall
  li a0, 1
  li a7, 21         # close the write end
  ecall
  li s0, 0
again:
  li a0, 0
  addi a1, sp, -32
  li a2, 1
  li a7, 5          # read a byte
  ecall
  add s0, s0, a0
  bne a0, x0, again
  mv a0, s0
  li a7, 2          # exit
  ecall
child:
  li a0, 1
  addi a1, sp, -8
  li a2, 3
  li a7, 16         # write
  ecall
  li a0, 0
  li a7, 2          # exit
  ecall
