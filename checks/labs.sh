#!/bin/sh
# Tries the labs of labs/: the right bodies of each are proved, by its own rules, and the wrong ones are told by a case.
#
#   checks/labs.sh [--play | --prove] [--from CLONE] [--wrong-too] [--unlike-too] [--write] [-v] [NAME..]     (no NAME: all labs)
#   checks/labs.sh --refusals
#   checks/labs.sh --notation
#   checks/labs.sh --class [--of N] [--jobs N] [--from CLONE] [--write]
#   checks/labs.sh --packs
#
# --play plays alone, which needs the kit and nothing else; --prove proves alone, over what ./lab prepare builds, or over the
# libraries that a gate or `rt check` proved in another CLONE. --wrong-too also sees that no wrong body is proved; --unlike-too
# also tries to prove the right bodies that are unlike the crate's own. What each body comes to has to be what the table
# checks/labs/verdicts.txt has; --write writes it there. -v shows the cases.
# --refusals hands in 118 answers of all sorts, most of which are to be refused, some of them as a class, and six outcomes of a
# play, and puts rows into books of marks; --notation compares the signs of the labs' files with labs/NOTATION.md. Both prove nothing, and take seconds, without a
# kit. --class grades a class by `lab grade`, of which one answer names another lab, one is of a lab that may not be prepared, one
# takes 1 GB of stack and one never ends: each folder has to get its row. It takes some minutes. With --of N it grades N stored
# bodies of seven labs in place of these, so many at once as --jobs says (2).
# --packs spoils a small pack in several ways, and sees that `lab fetch` takes none of them; it proves nothing, and takes seconds.
# Both of these, and all that plays or proves, need python3 and the Rattle kit.
# The status is 0 if all is so, 1 if not, 2 if it can't be tried.
exec python3 -B "$(dirname "$0")/../labs/tools/try_labs.py" "$@"
