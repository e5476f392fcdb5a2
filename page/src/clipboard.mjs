// The clipboard: browsers hand it out to pages of https and of files alone; elsewhere an older way is tried.

/** Copies the text of a field, which is chosen then. Tells whether it is in the clipboard. */
export async function copy_field(field) {
  field.select();
  try {
    await navigator.clipboard.writeText(field.value);
    return true;
  } catch {
    try { return document.execCommand("copy"); } catch { return false; }
  }
}

/** What is said of such a copy. */
export const copied_words = (is_copied) => (is_copied ? "It is in the clipboard." : "It is chosen: copy it by Ctrl C.");
