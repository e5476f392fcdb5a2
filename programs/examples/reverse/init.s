# Stores the bytes of a number in the opposite order, loads them again, and exits with the lowest: 0x12.
# It shows loads and stores: RISC-V is little-endian, so the lowest byte of a number stands first.
  li a0, 0x12345678
  addi a1, sp, -16   # four bytes of memory below the stack pointer
  srli t0, a0, 24
  sb t0, 0(a1)
  srli t0, a0, 16
  sb t0, 1(a1)
  srli t0, a0, 8
  sb t0, 2(a1)
  sb a0, 3(a1)
  lbu a0, 0(a1)
  li a7, 2           # exit(0x12)
  ecall
