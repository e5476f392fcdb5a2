# One child fills a pipe that nobody reads, and another one is to fill a second pipe. The parent reads the second, and gives the first up.
_start:
  la s5, ends
  mv a0, s5
  li a7, 4           # pipe
  ecall
  addi a0, s5, 8
  li a7, 4           # another pipe
  ecall
  li a7, 1           # fork
  ecall
  beq a0, x0, first
  li a7, 1           # fork
  ecall
  beq a0, x0, second
  li a0, 1
  li a7, 13          # sleep: both pipes are full
  ecall
  li s0, 3
next:
  lw a0, 8(s5)
  la a1, room
  li a2, 500
  li a7, 5           # read the second pipe
  ecall
  addi s0, s0, -1
  bne s0, x0, next
  lw a0, 0(s5)
  li a7, 21          # close the first one's read end
  ecall
  la a0, status
  li a7, 3           # wait
  ecall
  la t0, status
  lw a0, 0(t0)
  li a7, 2           # exit
  ecall
first:
  lw a0, 0(s5)
  li a7, 21          # close
  ecall
  lw a0, 4(s5)
  j fill
second:
  lw a0, 0(s5)
  li a7, 21          # close: only the parent can read the first
  ecall
  lw a0, 12(s5)
fill:
  la a1, room
  li a2, 5000
  li a7, 16          # write
  ecall
  li a7, 2           # exit
  ecall
.data
ends: .space 16
status: .dword 0
room: .space 5000
