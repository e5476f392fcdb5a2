// Names of files and folders that every host takes.

const MOST_OF_NAME = 200; // bytes
/** What Windows takes for a device, with any ending. */
export const DEVICE = /^(con|prn|aux|nul|com\d|lpt\d)(\.|$)/i;

/** A text in the one form in which it is compared: NFC, since a Mac writes the ü of a name as two letters. */
export const same_form = (text) => text.normalize("NFC").trim();

/** A text cut to so many bytes as a name may have everywhere. */
function cut(text) {
  const letters = [...text];
  while (Buffer.byteLength(letters.join("")) > MOST_OF_NAME) letters.pop();
  return letters.join("");
}

/** A text as the name of a folder. The same text always gives the same name. */
export function folder_name(text) {
  const plain = cut(same_form(text).replace(/[\\/:*?"<>|\p{Cc}\p{Cs}]/gu, "_"));
  const name = plain.replace(/^\.+|[. ]+$/g, "_") || "_";
  return DEVICE.test(name) ? `_${name}` : name;
}
