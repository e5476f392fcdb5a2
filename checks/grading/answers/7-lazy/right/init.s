  lui a0, 0x40000   # sbrklazy(a gigabyte)
  li a7, 22
  ecall
  mv s0, a0
  li t0, 7
  sb t0, 0(s0)
  li a7, 1          # fork
  ecall
  beq a0, x0, child
  addi a0, sp, -16
  li a7, 3          # wait
  ecall
  lb a0, 0(s0)
  li a7, 2          # exit
  ecall
child:
  lui t1, 1
touch:
  sb x0, 0(s0)
  li a7, 11         # getpid: a page came
  ecall
  add s0, s0, t1
  j touch
