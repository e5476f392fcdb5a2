# Writes more to the console than it holds.
_start:
  la a0, console      # open("console", 1)
  li a1, 1
  li a7, 15
  ecall
  la a1, text         # write(0, text, 54)
  li a2, 54
  li a7, 16
  ecall
  la t0, count
  sd a0, 0(t0)
  li a0, 0
  call end
end:
  li a7, 2            # exit(0)
  ecall
.data
count: .dword 0
console: .asciz "console"
text: .asciz "a line of more bytes than the console has\nand another\n"
