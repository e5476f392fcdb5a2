# A function that calls itself in the child, and waits in the parent until there is no child; the status is the depth below.
_start:
  li a0, 7
  call chain
  li a7, 2          # exit
  ecall
chain:              # the number of processes below this one
  beq a0, x0, leaf
  addi sp, sp, -16
  sd ra, 0(sp)
  sd a0, 8(sp)
  li a7, 1          # fork
  ecall
  beq a0, x0, child
again:
  li a0, 0
  li a7, 3          # wait, up to the answer -1
  ecall
  bge a0, x0, again
  ld a0, 8(sp)
  j back
child:
  ld a0, 8(sp)
  addi a0, a0, -1
  call chain
  li a7, 2          # exit
  ecall
back:
  ld ra, 0(sp)
  addi sp, sp, 16
leaf:
  ret
