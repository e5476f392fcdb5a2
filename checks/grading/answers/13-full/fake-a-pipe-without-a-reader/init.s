# The -1 comes from a second pipe, whose read end the child has closed itself. The first write isn't longer than what is read.
_start:
  la a0, ends
  li a7, 4           # pipe
  ecall
  li a7, 1           # fork
  ecall
  beq a0, x0, child
  li a0, 1
  li a7, 21          # close
  ecall
  li s0, 3
next:
  li a0, 0
  la a1, room
  li a2, 500
  li a7, 5           # read
  ecall
  addi s0, s0, -1
  bne s0, x0, next
  li a0, 0
  li a7, 21          # close
  ecall
  li a0, 0
  li a7, 3           # wait
  ecall
  li a0, -1
  li a7, 2           # exit
  ecall
child:
  li a0, 1
  la a1, room
  li a2, 1500
  li a7, 16          # write
  ecall
  la a0, others
  li a7, 4           # pipe
  ecall
  la t0, others
  lw a0, 0(t0)
  li a7, 21          # close
  ecall
  la t0, others
  lw a0, 4(t0)
  la a1, room
  li a2, 1500
  li a7, 16          # write
  ecall
  li a7, 2           # exit
  ecall
.data
ends: .space 8
others: .space 8
room: .space 1504
