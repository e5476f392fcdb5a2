# Writes "hello, " and its first argument to descriptor 0, and exits.
# It shows what a program begins with: a0 is the number of arguments, a1 the address of their addresses.
_start:
  ld s0, 8(a1)       # argument 1; argument 0 is the program's name
  la a1, hello
  call print
  mv a1, s0
  call print
  la a1, newline
  call print
  li a0, 0           # exit(0)
  li a7, 2
  ecall

# Writes the text at a1, which a zero byte ends, to descriptor 0.
print:
  mv a2, a1
count:
  lbu t0, 0(a2)
  beq t0, x0, counted
  addi a2, a2, 1
  j count
counted:
  sub a2, a2, a1     # write(0, text, its length)
  li a0, 0
  li a7, 16
  ecall
  ret
.data
hello: .asciz "hello, "
newline: .asciz "\n"
