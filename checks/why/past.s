# Stores to the first byte after its memory: the page there is closed, and the stack lies above it.
_start:
  lui a0, 1
  sb a7, 0(a0)
