# Averages of a table's column.
BEGIN { FS = "," }
NR > 1 { sum[$3] += $4; count[$3]++; if ($4 > best[$3]) { best[$3] = $4; who[$3] = $1 } }
END { for (subject in sum) printf "%-12s %6.2f, best is %s\n", subject, sum[subject] / count[subject], who[subject] | "sort"
      close("sort")
      print length("abc"), substr("machine", 2, 3), index("kernel", "n"), toupper("risc"), match("aabbb", /b+/), RLENGTH }
