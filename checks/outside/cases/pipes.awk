# Other programs from within awk: what it writes goes through one, what it reads comes from one.
BEGIN { FS = "," }
NR > 1 { print $4, $1 | "sort" }
END {
  close("sort")
  while (("head -2 school.csv" | getline line) > 0)
    print "head says " line
  print "grep answers " system("grep Grace school.csv")
}
