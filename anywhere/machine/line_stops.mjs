// Break points at lines: each belongs to the text of its line, {line, text}, and goes with it while the source is
// edited. What else it has, as a condition, stays with it.

/** How many lines two sources have in common at their beginnings, and how many at their ends behind that. */
function common(before, after) {
  const most = Math.min(before.length, after.length);
  let head = 0, tail = 0;
  while (head < most && before[head] === after[head]) head++;
  while (tail < most - head && before[before.length - 1 - tail] === after[after.length - 1 - tail]) tail++;
  return { head, tail };
}

/**
 * The line with this text, from 1 on, that is nearest to a line, among those from one on and before another; 0: there
 * is none.
 */
export function nearest(lines, text, line, from = 1, to = lines.length + 1) {
  let found = 0;
  const is_nearer = (k) => !found || Math.abs(k - line) < Math.abs(found - line);
  for (let k = from; k < to; k++) if (lines[k - 1].trim() === text && is_nearer(k)) found = k;
  return found;
}

/**
 * The break points of a source after an edit. One in a line that stays moves with it. In the part that was edited it
 * goes to the line that has its text; or it stays in its line, if the part has as many lines as before; or it is gone
 * with its line.
 */
export function moved(stops, before, after) {
  if (!stops.length) return stops;
  const { head, tail } = common(before, after), more = after.length - before.length, found = [];
  for (const it of stops) {
    const { line, text } = it;
    if (line <= head) found.push(it);
    else if (line > before.length - tail) found.push({ ...it, line: line + more });
    else {
      const same = nearest(after, text, line, head + 1, after.length - tail + 1);
      if (same) found.push({ ...it, line: same });
      else if (more === 0 && after[line - 1].trim()) found.push({ ...it, text: after[line - 1].trim() });
    }
  }
  return found.filter((it, k) => found.findIndex((other) => other.line === it.line) === k);
}
