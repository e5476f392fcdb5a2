# Makes a pipe and a child. The child writes 40 and 2 into the pipe, the parent reads them and exits with
# their sum. It shows how bytes get from one process to another, and how the reader sees the end: once nobody
# can write any more, a read of an empty pipe answers 0.
_start:
  addi a0, sp, -16   # pipe(below the stack pointer): 0 reads, 1 writes
  li a7, 4
  ecall
  li a7, 1           # fork()
  ecall
  beq a0, x0, child
  li a0, 1           # close(1): only the child can write from now on
  li a7, 21
  ecall
  li s0, 0
next:
  li a0, 0           # read(0, below the stack pointer, 1): it waits while the pipe is empty
  addi a1, sp, -17
  li a2, 1
  li a7, 5
  ecall
  beq a0, x0, end    # 0: the child has gone
  lbu t0, -17(sp)
  add s0, s0, t0
  j next
end:
  mv a0, s0
  li a7, 2           # exit(the sum)
  ecall
child:
  li t0, 40
  sb t0, -18(sp)
  li t0, 2
  sb t0, -17(sp)
  li a0, 1           # write(1, below the stack pointer, 2)
  addi a1, sp, -18
  li a2, 2
  li a7, 16
  ecall
  li a0, 0           # exit(0), which closes its ends
  li a7, 2
  ecall
