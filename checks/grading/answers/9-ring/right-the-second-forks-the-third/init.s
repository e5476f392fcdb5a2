# Process 2 is the parent of process 3. The number is a half word, and the ends lie in .data; who hears 30 doesn't pass it on.
_start:
  la s5, ends
  li s4, 3
make:
  mv a0, s5
  li a7, 4          # pipe
  ecall
  addi s5, s5, 8
  addi s4, s4, -1
  bne s4, x0, make
  la s5, ends
  li a7, 1          # fork
  ecall
  beq a0, x0, second
  lw s1, 16(s5)     # process 1 reads from the third pipe, and writes into the first
  lw s2, 4(s5)
  call shut
  j say
second:
  li a7, 1          # fork
  ecall
  beq a0, x0, third
  lw s1, 0(s5)
  lw s2, 12(s5)
  call shut
  j hear
third:
  lw s1, 8(s5)
  lw s2, 20(s5)
  call shut
hear:
  mv a0, s1
  la a1, number
  li a2, 2
  li a7, 5          # read
  ecall
  beq a0, x0, end
  la t0, number
  lhu t1, 0(t0)
  addi t1, t1, 1
  li t2, 31
  beq t1, t2, end
  sh t1, 0(t0)
say:
  mv a0, s2
  la a1, number
  li a2, 2
  li a7, 16         # write
  ecall
  j hear
end:
  mv a0, s2
  li a7, 21         # close, so that the next one sees the end
  ecall
  mv a0, s1
  li a7, 21
  ecall
  li a0, 0
  li a7, 3          # wait, if there is a child
  ecall
  li a0, 0
  li a7, 2          # exit
  ecall
shut:               # closes each of the six ends but s1 and s2
  mv t3, s5
  addi t4, s5, 24
end_of_it:
  lw a0, 0(t3)
  beq a0, s1, stays
  beq a0, s2, stays
  li a7, 21         # close
  ecall
stays:
  addi t3, t3, 4
  bne t3, t4, end_of_it
  ret
.data
ends: .space 24
number: .dword 0
