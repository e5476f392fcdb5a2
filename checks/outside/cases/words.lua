-- The words of a file that come most often, and how long words are on the average.
local counts, total, letters = {}, 0, 0
for line in io.lines(arg[1]) do
  for word in line:lower():gmatch("%a+") do
    counts[word] = (counts[word] or 0) + 1
    total = total + 1
    letters = letters + #word
  end
end
local words = {}
for word in pairs(counts) do
  words[#words + 1] = word
end
table.sort(words, function(left, right)
  return counts[left] > counts[right] or counts[left] == counts[right] and left < right
end)
for place = 1, 10 do
  print(string.format("%5d %s", counts[words[place]], words[place]))
end
print(string.format("%d words, %.3f letters each", total, letters / total))
