# Stores to address 0, in a function that another one calls.
_start:
  li a1, 7
  call store
  li a7, 2
  ecall
store:
  sw a1, 0(x0)       # the text may not be written
  ret
