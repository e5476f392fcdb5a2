# Reads of a variable, forth and back; and reads and writes.
rwatch counted
#> Hardware read watchpoint 1: counted
continue
#> Hardware read watchpoint 1: counted
#> Value = 0
continue 4
#> Hardware read watchpoint 1: counted
#> Value =
reverse-continue
#> Hardware read watchpoint 1: counted
reverse-continue
#> Hardware read watchpoint 1: counted
delete
awatch counted
#> Hardware access \(read/write\) watchpoint 2: counted
continue
#> Hardware access \(read/write\) watchpoint 2: counted
#> Value =
continue
#> Hardware access \(read/write\) watchpoint 2: counted
#> Old value =
#> New value =
reverse-continue
#> Hardware access \(read/write\) watchpoint 2: counted
delete
continue
#> No more reverse-execution history
