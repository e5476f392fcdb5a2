# Has children, one after another, that get 100 pages by sbrklazy, touch them all, and are gone, with no call between.
again:
  li a7, 1
  ecall
  beq a0, x0, child
  li a0, 0
  li a7, 3
  ecall
  j again
child:
  lui a0, 100
  li a7, 22
  ecall
  li t0, 100
  lui t1, 1
next:
  sb x0, 0(a0)
  add a0, a0, t1
  addi t0, t0, -1
  bne t0, x0, next
  li a0, 0
  li a7, 2
  ecall
