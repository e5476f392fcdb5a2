// Undo and redo of what was typed into a text: each text has its own edits, for as long as the page is open, so that
// another file or another example between takes none of them away.
const MOST = 2000; // edits of a text
const PAUSE = 1000; // ms: letters that come one after another within it are one edit
const edits = new WeakMap(); // of each file: {past, future}, of {at, removed, added, when}

function edits_of(file) {
  if (!edits.has(file)) edits.set(file, { past: [], future: [] });
  return edits.get(file);
}

/** What differs between two texts: from a place on so much was removed, and so much added. */
function edit_between(before, after) {
  const most = Math.min(before.length, after.length);
  let head = 0, tail = 0;
  while (head < most && before[head] === after[head]) head++;
  while (tail < most - head && before[before.length - 1 - tail] === after[after.length - 1 - tail]) tail++;
  return { at: head, removed: before.slice(head, before.length - tail), added: after.slice(head, after.length - tail) };
}

/** Whether an edit goes on with the last one: a letter after it, or one more that is taken away before it. */
function goes_on(last, { at, removed, added }, now) {
  if (!last || now - last.when > PAUSE) return false;
  const is_letter = !removed && !last.removed && added.length === 1 && added !== "\n";
  return (is_letter && at === last.at + last.added.length) || (!added && !last.added && removed.length === 1 && at === last.at - 1);
}

/** Notes that a file's text was changed. */
export function note(file, before, after, now) {
  const own = edits_of(file), { past } = own, edit = edit_between(before, after), last = past.at(-1);
  if (!edit.removed && !edit.added) return;
  own.future = [];
  if (goes_on(last, edit, now)) {
    const { at, removed, added } = edit;
    Object.assign(last, added ? { added: last.added + added } : { at, removed: removed + last.removed });
    last.when = now;
  } else {
    past.push({ ...edit, when: now });
    if (past.length > MOST) past.shift();
  }
}

/** Takes an edit back, or does it again: {text, from, to}, with what is to be chosen; null if there is none. */
export function changed_back(file, text, is_redo) {
  const { past, future } = edits_of(file), edit = (is_redo ? future : past).pop();
  if (!edit) return null;
  (is_redo ? past : future).push({ ...edit, when: 0 });
  const { at, removed, added } = edit, [gone, there] = is_redo ? [removed, added] : [added, removed];
  return { text: text.slice(0, at) + there + text.slice(at + gone.length), from: at, to: at + there.length };
}
