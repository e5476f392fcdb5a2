# What write reads for a process is told as a read of it, forth and back.
break write
continue
#> hit Breakpoint 1, write
set $text = $a1
rwatch -location *(char *) $text
#> Hardware read watchpoint 2
delete 1
continue
#> Hardware read watchpoint 2
#> Value =
print $a7
#> = 16
reverse-continue
#> Hardware read watchpoint 2
#> write \(\)
