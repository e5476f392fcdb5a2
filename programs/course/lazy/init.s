# Exercise 7. It is promised a gigabyte, touches five pages of it, and exits with 5.
  lui a0, 0x40000   # sbrklazy(a gigabyte): the answer is 0x3000, where the new memory begins
  li a7, 22
  ecall
  lui t0, 0x200     # a store at 0x200000
  sb a0, 0(t0)
  lui t0, 0x201     # loads at 0x201000, 0x10000000, 0x3fe00000 and 0x40000000
  lb t1, 0(t0)
  lui t0, 0x10000
  lb t1, 0(t0)
  lui t0, 0x3fe00
  lb t1, 0(t0)
  lui t0, 0x40000
  lb t1, 0(t0)
  li a0, 5
  li a7, 2          # exit
  ecall
