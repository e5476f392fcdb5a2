# Exits with the twelfth number of Fibonacci's row: 144.
# It shows a function: call leaves the return address in ra, ret goes back to it.
_start:
  li a0, 12
  call fibonacci
  li a7, 2           # exit(result)
  ecall

# a0: which number of the row is wanted; it is also the answer.
fibonacci:
  li t0, 0
  li t1, 1
next:
  beq a0, x0, done
  add t2, t0, t1
  mv t0, t1
  mv t1, t2
  addi a0, a0, -1
  j next
done:
  mv a0, t0
  ret
