# stores to "nowhere": quote marks in comments begin no text
_start:
  li t0, 0
  # the "bad" store
  sd t0, 0(t0)
