# Takes a number for a function's address.
_start:
  la t0, where
  ld t0, 0(t0)
  jalr ra, 0(t0)
.data
where: .dword 0x123456780
