# How often each word comes, the most frequent first: awk hands its lines to a program `sort`, by a pipe of its own.
{
  for (place = 1; place <= NF; place++) {
    word = tolower($place)
    gsub(/[^a-z]/, "", word)
    count[word]++
  }
}
END {
  for (word in count)
    printf "%2d %s\n", count[word], word | "sort -r"
}
