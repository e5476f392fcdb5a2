# 400 times 1 MB goes from one process's memory through a pipe into another's. Each write is of a page, and each read
# asks for as many bytes. measure.sh also puts all that is left (s4) in place of a page.
  lui a0, 257        # 256 pages, and one more, up to which the last read may ask
  li a7, 12          # sbrk
  ecall
  mv s1, a0
  addi a0, sp, -16
  li a7, 4           # pipe: descriptor 0 reads, 1 writes
  ecall
  li a7, 1           # fork
  ecall
  beq a0, x0, child
  li a0, 0
  li a7, 21          # close
  ecall
  li s2, 400
again:
  mv s3, s1
  lui s4, 256        # bytes left
write:
  li a0, 1
  mv a1, s3
  lui a2, 1
  li a7, 16          # write
  ecall
  add s3, s3, a0
  sub s4, s4, a0
  bne s4, x0, write
  addi s2, s2, -1
  bne s2, x0, again
  li a0, 1
  li a7, 21          # close: the reader's next read gives 0
  ecall
  li a0, 0
  li a7, 3           # wait
  ecall
  li a0, 0
  li a7, 2           # exit
  ecall
child:
  li a0, 1
  li a7, 21          # close
  ecall
start:
  mv s3, s1
  lui s4, 256
read:
  li a0, 0
  mv a1, s3
  lui a2, 1
  li a7, 5           # read
  ecall
  beq a0, x0, end
  add s3, s3, a0
  sub s4, s4, a0
  bne s4, x0, read
  j start
end:
  li a0, 0
  li a7, 2           # exit
  ecall
