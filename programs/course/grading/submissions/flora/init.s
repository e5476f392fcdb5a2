  li a7, 1          # fork
  ecall
  beq a0, x0, child
  li a7, 1          # fork
  ecall
  beq a0, x0, child
  li a0, 0
  call wait          # wait
  ecall
  li a0, 0
  li a7, 3          # wait
  ecall
  li a0, 0
  li a7, 2          # exit
  ecall
child:
  li a0, 7
  li a7, 2          # exit
  ecall
