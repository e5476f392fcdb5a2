# Becomes the program "greet" with the arguments "greet" and "world".
# It shows exec: the process keeps its pid and its descriptors, and gets new memory.
_start:
  la a0, console     # open("console", 1): descriptor 0, which "greet" writes to
  li a1, 1
  li a7, 15
  ecall
  la a0, path        # exec("greet", arguments)
  la a1, arguments
  li a7, 7
  ecall              # comes back only where it is refused
  li a0, 1           # exit(1)
  li a7, 2
  ecall
.data
arguments: .dword path, world, 0
path: .asciz "greet"
world: .asciz "world"
console: .asciz "console"
