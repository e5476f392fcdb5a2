# Reads the file `b`, and exits with the number of its bytes, or with -1 if there is no such file.
_start:
  la a0, name
  li a1, 0
  li a7, 15
  ecall
  blt a0, x0, end
  mv s0, a0
  li s1, 0
more:
  mv a0, s0
  la a1, bytes
  li a2, 2048
  li a7, 5
  ecall
  add s1, s1, a0
  bne a0, x0, more
  mv a0, s1
end:
  li a7, 2
  ecall
.data
name: .asciz "b"
bytes: .space 2048
