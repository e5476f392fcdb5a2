# A first child ends at once, so the pages are touched by process 3; the parent waits for both.
_start:
  li a7, 1          # fork
  ecall
  beq a0, x0, end
  lui a0, 0x40000
  li a7, 22         # sbrklazy
  ecall
  mv s0, a0
  li t0, 7
  sb t0, 0(s0)
  li a7, 1          # fork
  ecall
  beq a0, x0, child
again:
  li a0, 0
  li a7, 3          # wait, as long as there is a child
  ecall
  bge a0, x0, again
  lb a0, 0(s0)
end:
  li a7, 2          # exit
  ecall
child:
  lui t1, 1
touch:
  sw x0, 0(s0)
  li a7, 11         # getpid
  ecall
  add s0, s0, t1
  j touch
