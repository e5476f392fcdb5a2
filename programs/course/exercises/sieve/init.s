# What is asked about a sieve, by the number of primes: the file `asked` has three numbers, LAST, EACH and MORE. It exits with
# EACH for each prime up to LAST, and MORE.
_start:
  la a0, name
  li a1, 0
  li a7, 15          # open, to read
  ecall
  la a1, text
  li a2, 63
  li a7, 5           # read
  ecall
  la s0, text
  call number
  mv s1, a0          # LAST
  call number
  mv s2, a0          # EACH
  call number        # MORE, to which EACH is added
  li t0, 2
candidate:
  bltu s1, t0, end
  li t1, 2
divisor:
  beq t0, t1, prime  # nothing below it divides it
  mv t2, t0
subtract:
  sub t2, t2, t1
  beq t2, x0, next
  bge t2, t1, subtract
  addi t1, t1, 1
  j divisor
prime:
  add a0, a0, s2
next:
  addi t0, t0, 1
  j candidate
end:
  li a7, 2           # exit
  ecall
number:              # the number that begins at s0, and s0 after it and the byte that ends it
  li a0, 0
  li t2, 10
digit:
  lbu t0, 0(s0)
  addi s0, s0, 1
  addi t0, t0, -48
  bgeu t0, t2, done
  slli t1, a0, 3     # ten times
  slli a0, a0, 1
  add a0, a0, t1
  add a0, a0, t0
  j digit
done:
  ret
.data
text: .space 64
name: .asciz "asked"
