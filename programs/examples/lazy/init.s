# Grows by a gigabyte, and touches three pages of it: it stores 40 into one and 2 into another, and loads from a third,
# which nobody has written. It exits with the sum of the three. It shows memory that is promised at once, and comes page
# by page, full of zeros: all of it costs six frames, in a machine of 16.
_start:
  lui a0, 0x40000    # sbrklazy(1073741824): the answer is 0x3000, where the new memory begins
  li a7, 22
  ecall
  li t0, 40
  sb t0, 0(a0)       # a page: it costs its frame
  lui s1, 0x40000    # nearly a gigabyte further: two tables and a page
  li t0, 2
  sb t0, 0(s1)
  lui s2, 0x20000    # half way: a table and a page
  lbu t2, 0(s2)
  lbu t0, 0(a0)
  lbu t1, 0(s1)
  add a0, t0, t1
  add a0, a0, t2
  li a7, 2           # exit(the sum)
  ecall
