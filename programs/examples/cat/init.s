# Writes the file "poem.txt" to the console and exits. Without such a file it exits with 1.
# It shows files: a FILE of the command line can be opened by its name, whatever it holds.
_start:
  la a0, console     # open("console", 1): descriptor 0, for writing
  li a1, 1
  li a7, 15
  ecall
  la a0, poem        # open("poem.txt", 0): descriptor 1, for reading
  li a1, 0
  li a7, 15
  ecall
  blt a0, x0, missing
next:
  li a0, 1           # read(1, buffer, 50)
  la a1, buffer
  li a2, 50
  li a7, 5
  ecall
  beq a0, x0, end    # 0: the end of the file
  mv a2, a0          # write(0, buffer, the number of bytes that were read)
  la a1, buffer
  li a0, 0
  li a7, 16
  ecall
  j next
end:
  li a0, 0           # exit(0)
  li a7, 2
  ecall
missing:
  li a0, 1           # exit(1)
  li a7, 2
  ecall
.data
console: .asciz "console"
poem: .asciz "poem.txt"
buffer: .space 50
