#!/usr/bin/env node
// Grades submissions on any host, by Node (18.17 or later): node anywhere/grade.mjs [OPTION..] EXERCISE SUBMISSION.. >results.csv
//
//   EXERCISE         a file of TOML, as programs/course/grading/children.toml; docs/manual/grading.md says what stands in it
//   SUBMISSION       a folder for each student, whose name may have any bytes
//   --work FOLDER    where each submission's results are kept: its console, notes, trace and picture (./grade-work/NAME, if
//                    the exercise is NAME.toml)
//   --resume         a submission that has a result there is not graded anew, unless it, the exercise or the program changed
//   --jobs N         so many at a time (as many as there are processors)
//
// It gives what programs/course/grade.sh gives, byte for byte. One line of CSV a submission goes to standard output, in the order
// of the names' bytes, and to FOLDER/results.csv; FOLDER/results.xml is the same for what reads JUnit's XML. Only plain files of
// the names that the exercise has, no longer than 1,048,576 bytes, are taken, and copied before they are used; no link is
// followed, and nothing of a submission is run on the host. How long a run may take is said in events, so the results are the
// same on any host, in any order and on any number of processors. With XV_PICTURE= no pictures are drawn.
// A submission that the host can't read, or whose result it can't write, has no mark: it is `not graded`, and --resume takes it
// up. One grader at a time works in a FOLDER: its file `lock` says which.
//
// Status: 0 each submission has a result; 1 the words are refused; 2 the exercise is refused, another grader works in the FOLDER,
// a submission is not graded, or there is no module; 5 the results can't be written; 125 Node is too old, or it met a fault of
// its own.
import { begin } from "./src/begin.mjs";

begin("grade", "./grading/grade.mjs");
