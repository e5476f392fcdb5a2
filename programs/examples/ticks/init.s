# Writes "tick" three times, and sleeps for ten ticks of the clock before each.
# It shows sleep: while all processes sleep the machine is idle, and the clock goes on.
_start:
  la a0, console     # open("console", 1): descriptor 0
  li a1, 1
  li a7, 15
  ecall
  li s0, 3
again:
  li a0, 10          # sleep(10)
  li a7, 13
  ecall
  li a0, 0           # write(0, text, 5)
  la a1, text
  li a2, 5
  li a7, 16
  ecall
  addi s0, s0, -1
  bne s0, x0, again
  li a0, 0           # exit(0)
  li a7, 2
  ecall
.data
console: .asciz "console"
text: .asciz "tick\n"
