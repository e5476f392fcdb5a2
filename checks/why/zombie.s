# Has a child that ends, and reads a key where it should wait.
_start:
  li a7, 1
  ecall
  beq a0, zero, child
  li a0, 0
  addi a1, sp, -8
  li a2, 1
  li a7, 5
  ecall
child:
  li a0, 7
  li a7, 2
  ecall
