# Steps of processes that run another program than the one whose names GDB has, and a breakpoint where its first instruction stands.
stepi
print/x $pc != 0
#> = 0x1
stepi
stepi
info threads
#> \* 1    Thread 1 \(init runs\)
break _start
continue
#> Thread 2 hit Breakpoint 1, _start
thread 1
stepi
#> wait \(\)|main
