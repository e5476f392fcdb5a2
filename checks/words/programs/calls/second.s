# Exits with the number of its words.
_start:
    li a7, 2
    ecall
