# prints "hi"
_start:
  li t0, 0
  # the "bad" store
  sd t0, 0(t0)
