# Another child ends first, so the writer is process 3. The status lies in .data, and both close what they don't need.
_start:
  li a7, 1           # fork
  ecall
  beq a0, x0, nothing
  li a0, 0
  li a7, 3           # wait
  ecall
  la s1, ends
  mv a0, s1
  li a7, 4           # pipe
  ecall
  li a7, 1           # fork
  ecall
  beq a0, x0, child
  lw a0, 4(s1)
  li a7, 21          # close
  ecall
  call once
  call once
  call once
  lw a0, 0(s1)
  li a7, 21          # close
  ecall
  la a0, status
  li a7, 3           # wait
  ecall
  la t0, status
  lw a0, 0(t0)
nothing:
  li a7, 2           # exit
  ecall
once:
  lw a0, 0(s1)
  la a1, room
  li a2, 500
  li a7, 5           # read
  ecall
  ret
child:
  lw a0, 0(s1)
  li a7, 21          # close
  ecall
  lw a0, 4(s1)
  la a1, room
  li a2, 1
  slli a2, a2, 12
  addi a2, a2, 904
  li a7, 16          # write 5,000 bytes
  ecall
  li a7, 2           # exit
  ecall
.data
ends: .space 8
status: .dword 0
room: .space 5000
