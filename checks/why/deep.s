# Calls itself without an end: each call takes 16 bytes of the stack, which has one page.
_start:
  call deeper
deeper:
  addi sp, sp, -16
  sd ra, 8(sp)
  call deeper
