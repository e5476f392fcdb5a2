# Stores a byte to the address 0, where nothing may be written.
_start:
  li a7, 2
  li a0, 0
  sb a0, 0(x0)
