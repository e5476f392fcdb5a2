# 200 times 512 bytes go through a pipe, by a write and a read of one process. counts.sh also puts another number.
  lui a0, 1
  li a7, 12          # sbrk
  ecall
  mv s1, a0
  addi a0, sp, -16
  li a7, 4           # pipe: descriptor 0 reads, 1 writes
  ecall
  li s2, 200
  li s3, 512
again:
  li a0, 1
  mv a1, s1
  mv a2, s3
  li a7, 16          # write
  ecall
  bne a0, s3, bad
  li a0, 0
  mv a1, s1
  mv a2, s3
  li a7, 5           # read
  ecall
  bne a0, s3, bad
  addi s2, s2, -1
  bne s2, x0, again
  li a0, 0
  li a7, 2           # exit
  ecall
bad:
  li a0, 1
  li a7, 2           # exit
  ecall
