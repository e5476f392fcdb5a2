# Jumps to an address that is no multiple of 4: the process faults with cause 0, and exits with -1.
# It shows a fault: the jump is not made, and no register is written.
  li t0, 6
  jalr ra, 0(t0)
