# Each process asks for its pid and the time as well, and exits with its pid.
  li s1, 8
again:
  li a7, 11         # getpid
  ecall
  mv s2, a0
  li a7, 14         # uptime
  ecall
  beq s2, s1, end
  li a7, 1          # fork
  ecall
  beq a0, x0, again
  addi a0, sp, -16
  li a7, 3          # wait
  ecall
end:
  mv a0, s2
  li a7, 2          # exit
  ecall
