# The child says on the console that it begins, and the parent that it ends.
_start:
  la a0, name
  li a1, 2
  li a7, 15          # open: 0
  ecall
  la a0, ends
  li a7, 4           # pipe: 1 reads, 2 writes
  ecall
  li a7, 1           # fork
  ecall
  beq a0, x0, child
  li s0, 3
next:
  li a0, 1
  la a1, room
  li a2, 500
  li a7, 5           # read
  ecall
  addi s0, s0, -1
  bne s0, x0, next
  li a0, 1
  li a7, 21          # close the read end
  ecall
  la a0, status
  li a7, 3           # wait
  ecall
  li a0, 0
  la a1, ends_text
  li a2, 5
  li a7, 16          # write to the console
  ecall
  la t0, status
  lw a0, 0(t0)
  li a7, 2           # exit
  ecall
child:
  li a0, 1
  li a7, 21          # close the read end
  ecall
  li a0, 0
  la a1, begins
  li a2, 7
  li a7, 16          # write to the console
  ecall
  li a0, 2
  la a1, room
  li a2, 5000
  li a7, 16          # write into the pipe
  ecall
  li a7, 2           # exit
  ecall
.data
status: .dword 0
ends: .space 8
room: .space 5000
name: .asciz "console"
begins: .asciz "begins\n"
ends_text: .asciz "ends\n"
