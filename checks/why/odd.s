# Loads four bytes from an address that is no multiple of 4.
_start:
  la t0, bytes
  lw a0, 1(t0)
.data
bytes: .space 8
