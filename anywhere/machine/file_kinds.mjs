// What a file of the list is.

/** A source is a text whose name ends in .s. */
export const is_source = (file) => file?.text !== undefined && file.name.endsWith(".s");

/** Whether bytes begin as a program file does (ELF-64 Object File Format, "File header"). */
export const is_elf = (bytes) => bytes[0] === 127 && bytes[1] === 69 && bytes[2] === 76 && bytes[3] === 70;

/** A source in C, or a header of one. */
export const is_c = (file) => file?.text !== undefined && /\.[ch]$/.test(file.name);

/** A text in C without its comments and its texts in quotes: blanks stand for them, and its lines stay. */
export function c_code(text) {
  const part = /\/\*[\s\S]*?(?:\*\/|$)|\/\/[^\n]*|"(?:\\.|[^"\\\n])*"?|'(?:\\.|[^'\\\n])*'?/g;
  return text.replace(part, (it) => it.replace(/[^\n]/g, " "));
}

/** Whether a file is a source in C of which a program is made: it has the function main. */
export const is_c_program = (file) => is_c(file) && file.name.endsWith(".c") && /\bmain\s*\(/.test(c_code(file.text));
