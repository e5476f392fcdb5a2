# It copies the first word of the file `word` into a buffer, counts its letters, and exits with their number.
_start:
  la a0, name
  li a1, 0
  li a7, 15         # open, to read
  ecall
  la a1, text
  li a2, 63
  li a7, 5          # read, from the descriptor that open answered
  ecall
  la a0, text
  la a1, buffer
  call copy
  la t0, count
  ld a0, 0(t0)
  li a7, 2          # exit(count)
  ecall
copy:               # copies the bytes from a0 on to a1, up to a blank, and counts those before it
  la t3, count
  li t1, 32
again:
  lbu t0, 0(a0)
  beq t0, t1, end
  beq t0, x0, end
  sb t0, 0(a1)
  ld t2, 0(t3)
  addi t2, t2, 1
  sd t2, 0(t3)
  addi a0, a0, 1
  addi a1, a1, 1
  j again
end:
  sb x0, 0(a1)
  ret
.data
buffer: .space 8
count: .dword 0
text: .space 64
name: .asciz "word"
