# A watchpoint whose condition never holds, in a program that forks: GDB looks at each change and goes on.
watch counted if counted == 1000000
continue
#> No more reverse-execution history
continue
#> exited
