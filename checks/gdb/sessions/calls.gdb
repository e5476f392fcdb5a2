# Kernel calls by breakpoints at their functions, since GDB 13 has no catch syscall for RISC-V; and catch, which GDB refuses.
break main
continue
#> Thread 2 hit Breakpoint 1, main
break fork
continue
#> Thread 2 hit Breakpoint 2, fork
finish
#> main \(\)
print $a0
#> = 4
delete
break write if $a2 == 11
continue
#> Thread 4 hit Breakpoint 3, write
x/s $a1
#> child: 820
finish
print $a0
#> = 11
reverse-continue
#> Thread 4 hit Breakpoint 3, write
catch fork
continue
#> Your system does not support this type
