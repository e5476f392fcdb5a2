# Exercise 3. Each process forks three times in a row, as its children do behind their fork. Then it waits for all its
# children, and exits with 1 and the sum of their statuses.
  li a7, 1          # fork
  ecall
  ecall
  ecall
  li s0, 1
again:
  addi a0, sp, -16  # the status goes there
  li a7, 3          # wait
  ecall
  blt a0, x0, end
  lw a0, -16(sp)
  add s0, s0, a0
  j again
end:
  mv a0, s0
  li a7, 2          # exit
  ecall
