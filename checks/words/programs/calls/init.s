# Does each kernel call once at least, some of them wrongly.
# s0 to s2 have a pid and the ends of a pipe.
_start:
    la a0, console          # open("console", 2)
    li a1, 2
    li a7, 15
    ecall
    li a0, 0                # dup(0)
    li a7, 10
    ecall
    la a0, nothing          # open("nothing", 0), which fails
    li a1, 0
    li a7, 15
    ecall
    li a0, 1                # write, of bytes that no line shows, and of more than 32
    la a1, odd
    li a2, 6
    li a7, 16
    ecall
    li a0, 1
    la a1, long
    li a2, 34
    li a7, 16
    ecall
    li a0, 0                # read(0, 0x.., 64) waits for keys
    la a1, room
    li a2, 64
    li a7, 5
    ecall
    li a0, 9                # write(9, ..), which fails
    la a1, odd
    li a2, 3
    li a7, 16
    ecall
    la a0, ends             # pipe
    li a7, 4
    ecall
    li a7, 1                # a child that sleeps, and is killed
    ecall
    beq a0, zero, sleeper
    mv s0, a0
    li a0, 1                # sleep(1)
    li a7, 13
    ecall
    mv a0, s0               # kill
    li a7, 6
    ecall
    la a0, status           # wait
    li a7, 3
    ecall
    li a7, 1                # a child that becomes another program
    ecall
    beq a0, zero, other
    li a0, 0                # wait(0)
    li a7, 3
    ecall
    li a7, 1                # a child that faults
    ecall
    beq a0, zero, faulty
    la a0, status
    li a7, 3
    ecall
    li a0, 4096             # sbrk(4096), sbrklazy(8192), sbrk(-4096), and too much
    li a7, 12
    ecall
    li a0, 8192
    li a7, 22
    ecall
    li a0, -4096
    li a7, 12
    ecall
    li a0, 0x7fffffff
    li a7, 12
    ecall
    li a7, 11               # getpid
    ecall
    li a7, 14               # uptime
    ecall
    li a0, 3                # close
    li a7, 21
    ecall
    li a0, 1                # a number that no call has
    li a1, 2
    li a2, 16
    li a7, 99
    ecall
    li a0, 0
    li a7, 2
    ecall

sleeper:
    li a0, 1000
    li a7, 13
    ecall

other:
    la t0, words
    la t1, first
    sd t1, 0(t0)
    la t1, last
    sd t1, 8(t0)
    la a0, nothing          # exec of nothing fails
    la a1, words
    li a7, 7
    ecall
    la a0, path
    la a1, words
    li a7, 7
    ecall

faulty:
    sd zero, 0(zero)

.data
words: .space 24
status: .dword 0
ends: .word 0, 0
console: .asciz "console"
nothing: .asciz "nothing"
path: .asciz "/second"
first: .asciz "second"
last: .asciz "a \"word\""
odd: .byte 7, 34, 92, 9, 200, 10
long: .asciz "0123456789abcdefghijklmnopqrstuvwx"
room: .space 64
