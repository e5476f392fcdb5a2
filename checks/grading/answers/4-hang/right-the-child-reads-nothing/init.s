# The child closes the read end, writes, closes the write end and sleeps; the parent's end of the pipe comes before the child ends.
  la a0, ends
  li a7, 4          # pipe
  ecall
  la s1, ends
  li a7, 1          # fork
  ecall
  bne a0, x0, parent
  lw a0, 0(s1)
  li a7, 21         # close
  ecall
  lw a0, 4(s1)
  la a1, ends
  li a2, 3
  li a7, 16         # write
  ecall
  lw a0, 4(s1)
  li a7, 21         # close
  ecall
  li a0, 3
  li a7, 13         # sleep
  ecall
  li a0, 0
  li a7, 2          # exit
  ecall
parent:
  lw a0, 4(s1)
  li a7, 21         # close
  ecall
  li s2, 0
more:
  lw a0, 0(s1)
  la a1, room
  li a2, 100
  li a7, 5          # read
  ecall
  beq a0, x0, done
  add s2, s2, a0
  j more
done:
  li a0, 0
  li a7, 3          # wait
  ecall
  mv a0, s2
  li a7, 2          # exit
  ecall
.data
ends: .space 8
room: .space 104
