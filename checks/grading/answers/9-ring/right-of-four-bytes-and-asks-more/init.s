  li a7, 11         # getpid
  ecall
  addi a0, sp, -64
  li a7, 4          # the pipe from init to the first child
  ecall
  addi a0, sp, -56
  li a7, 4          # the pipe from the first child to the second
  ecall
  addi a0, sp, -48
  li a7, 4          # the pipe from the second child to init
  ecall
  li a7, 1          # fork
  ecall
  beq a0, x0, first
  li a7, 1          # fork
  ecall
  beq a0, x0, second
  lw s1, -48(sp)
  lw s2, -60(sp)
  li s3, 0
  j shut
first:
  lw s1, -64(sp)
  lw s2, -52(sp)
  li s3, 1
  j shut
second:
  lw s1, -56(sp)
  lw s2, -44(sp)
  li s3, 1
shut:
  addi s4, sp, -64  # close each of the six ends but s1 and s2
  addi s5, sp, -40
next:
  lw a0, 0(s4)
  addi s4, s4, 4
  beq a0, s1, kept
  beq a0, s2, kept
  li a7, 21         # close
  ecall
kept:
  bne s4, s5, next
  li s6, 0
  beq s3, x0, say   # init begins, with 0
turn:
  mv a0, s1
  addi a1, sp, -32
  li a2, 4
  li a7, 5          # read a number
  ecall
  beq a0, x0, end
  lw s6, -32(sp)
  li t0, 30
  beq s6, t0, end
  addi s6, s6, 1
say:
  sw s6, -32(sp)
  mv a0, s2
  addi a1, sp, -32
  li a2, 4
  li a7, 16         # write a number
  ecall
  li t0, 30
  bne s6, t0, turn
end:
  bne s3, x0, out
  mv a0, s2
  li a7, 21         # close
  ecall
  li a0, 0
  li a7, 3          # wait
  ecall
  li a0, 0
  li a7, 3          # wait
  ecall
out:
  li a0, 0
  li a7, 2          # exit
  ecall
