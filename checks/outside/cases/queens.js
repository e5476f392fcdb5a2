// In how many ways eight queens stand on a board without a fight.
function ways(row, columns, left, right) {
  if (row === 8) return 1;
  var count = 0;
  for (var place = 0; place < 8; place++) {
    var bit = 1 << place;
    if (!(columns & bit) && !(left & (bit << row)) && !(right & (bit << (7 - row))))
      count += ways(row + 1, columns | bit, left | (bit << row), right | (bit << (7 - row)));
  }
  return count;
}
print(ways(0, 0, 0, 0));
