# Two processes with two pipes: each reads from the other one first, and only then would write.
# It shows a deadlock: each waits for what the other one does next, so nobody can go on.
_start:
  addi a0, sp, -16   # pipe: 0 reads, 1 writes; from the child to the parent
  li a7, 4
  ecall
  addi a0, sp, -16   # pipe: 2 reads, 3 writes; from the parent to the child
  ecall
  li a7, 1           # fork()
  ecall
  beq a0, x0, child
  li a0, 1           # close(1) and close(2): those ends are the child's
  li a7, 21
  ecall
  li a0, 2
  ecall
  li s0, 0           # it reads by 0, and writes by 3
  li s1, 3
  j ask
child:
  li a0, 0           # close(0) and close(3): those ends are the parent's
  li a7, 21
  ecall
  li a0, 3
  ecall
  li s0, 2           # it reads by 2, and writes by 1
  li s1, 1
ask:
  mv a0, s0          # read(.., below the stack pointer, 1): the other one has to write first
  addi a1, sp, -17
  li a2, 1
  li a7, 5
  ecall
  mv a0, s1          # write(.., below the stack pointer, 1): nobody comes to it
  addi a1, sp, -17
  li a2, 1
  li a7, 16
  ecall
  li a0, 0           # exit(0)
  li a7, 2
  ecall
