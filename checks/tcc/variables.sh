#!/bin/sh
# variables.sh FOLDER: what the debugger tells of the variables of FOLDER/variables, which was made of variables.c, at the lines that are
# marked there: each with its value, but addresses.
line() {
    grep -n "/\* $1 \*/" "$(dirname "$0")/variables.c" | cut -d : -f 1
}
looks='info args
info locals
'
words="break variables.c:$(line 'in the block')
c
${looks}c
${looks}delete
break variables.c:$(line 'at weight')
c
${looks}print *to
up
info locals
delete
break variables.c:$(line 'at sum')
c
${looks}delete
break variables.c:$(line 'at main')
c
${looks}print pairs
print large
print negative
print counts
print *head
print head->next->value
print title
print both.point.y
ptype struct flags
quit
"
printf '%s' "$words" | node xv.mjs --debug "$1/variables" 2>&1 | grep -e ' = ' -e '^    ' | grep -v '^list = ' | sed 's/0x[0-9a-f]*/ADDRESS/g'
