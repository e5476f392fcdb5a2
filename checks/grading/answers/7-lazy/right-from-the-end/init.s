# The child touches the gigabyte from its end downwards, a byte within each page, and asks after each.
_start:
  lui s1, 0x40000   # a gigabyte
  mv a0, s1
  li a7, 22         # sbrklazy
  ecall
  mv s0, a0
  li t0, 7
  sd t0, 0(s0)
  li a7, 1          # fork
  ecall
  bne a0, x0, parent
  add s2, s0, s1
  lui s3, 1
down:
  sub s2, s2, s3
  sb s3, 8(s2)
  li a7, 11         # getpid
  ecall
  bltu s0, s2, down
parent:
  addi a0, sp, -8
  li a7, 3          # wait
  ecall
  ld a0, 0(s0)
  li a7, 2          # exit
  ecall
