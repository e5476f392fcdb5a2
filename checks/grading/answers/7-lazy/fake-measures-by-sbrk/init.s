# The child grows by a page at a time as long as the kernel gives one, and asks for its pid after each; it touches none. Then it faults.
_start:
  lui a0, 0x40000
  li a7, 22         # sbrklazy
  ecall
  mv s0, a0
  li t0, 7
  sb t0, 0(s0)
  li a7, 1          # fork
  ecall
  beq a0, x0, child
  li a0, 0
  li a7, 3          # wait
  ecall
  lb a0, 0(s0)
  li a7, 2          # exit
  ecall
child:
  lui a0, 1
  li a7, 12         # sbrk: a page at once
  ecall
  blt a0, x0, enough
  li a7, 11         # getpid
  ecall
  j child
enough:
  sb x0, 0(x0)
