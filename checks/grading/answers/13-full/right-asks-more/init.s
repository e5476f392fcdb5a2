_start:
  addi a0, sp, -16   # pipe(below the stack pointer): 0 reads, 1 writes
  li a7, 4
  ecall
  li a7, 1           # fork()
  ecall
  beq a0, x0, child
  li a0, 1           # close(1): only the child writes
  li a7, 21
  ecall
  li s0, 3
  li a7, 11          # getpid()
  ecall
next:
  li a0, 0           # read(0, buffer, 500)
  la a1, buffer
  li a2, 500
  li a7, 5
  ecall
  addi s0, s0, -1
  bne s0, x0, next
  li a0, 0           # close(0): nobody reads any more
  li a7, 21
  ecall
  la a0, state
  li a7, 3
  ecall
  la t0, state
  lw a0, 0(t0)
  li a7, 2           # exit(the child's status)
  ecall
child:
  li a0, 0           # close(0): only the parent reads
  li a7, 21
  ecall
  li a0, 1           # write(1, buffer, 5000)
  la a1, buffer
  li a2, 5000
  li a7, 16
  ecall
  li a7, 2           # exit(what write answered)
  ecall
.data
state: .word 0
.word 0
buffer: .space 5000
