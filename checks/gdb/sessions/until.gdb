# Down to a line, past a loop, and to a place.
break work
continue
#> hit Breakpoint 1
until
until
until
until
advance add
#> add
until
tbreak exit
continue
#> hit
