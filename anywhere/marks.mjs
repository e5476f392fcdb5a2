#!/usr/bin/env node
// Marks of a class, to and from a course's system, by Node (18.17 or later): node anywhere/marks.mjs COMMAND ..
//
//   sheet EXERCISE [--open FILE]              what a student may know of an exercise: for xv --check, to be handed out
//   try EXERCISE FOLDER                       whether answers in FOLDER have what their names say: right.., fake.., wrong..
//   secret FILE                               makes FILE, a secret by which numbers are drawn
//   draw EXERCISE --secret FILE --to FILE [--draw FILE] [--variants N]
//                                             the exercise with numbers that are drawn by a secret
//   collect WAY FOLDER --to FOLDER [--roster FILE] [--exercise FILE] [--prefix TEXT]
//                                             makes a class of folders of what moodle, canvas or github gave (WAY)
//   json COURSE --to FILE [--on DAY]          all marks of a course in one file, and what has changed in it; DAY is that
//                                             of the changes, as 2027-05-01, if not today
//   csv WAY FILE                              a table of such marks: for people, students, moodle or canvas (WAY); that for
//                                             students has a row for each part, and tells no answer
//   junit FILE                                JUnit's XML
//   html FILE --to FOLDER [--closed] [--page ADDRESS]
//                                             a page for each student; --closed: without what tells an answer
//   gradescope EXERCISE --to FILE [--roster FILE] [--open FILE] [--node FILE]
//                                             an autograder for Gradescope, a zip
//   github SHEET --to FOLDER [--prefix TEXT]  what a repository of GitHub Classroom begins with: a check at each push
//
// EXERCISE is a file of TOML, as programs/course/grading/children.toml; COURSE is one too, which says where the
// results of each exercise lie (docs/manual/marks.md). What is made goes to standard output, if --to isn't asked for.
// Nothing of a submission is run on the host, and no name or text of a student's is part of a command, or of a page's
// or a table's form.
//
// Status: 0 it is done; 1 the words are refused; 2 a file is refused, or can't be read; 5 one can't be written; 125
// Node is too old, or it met a fault of its own.
import { begin } from "./src/begin.mjs";

begin("marks", "./marking/main.mjs");
