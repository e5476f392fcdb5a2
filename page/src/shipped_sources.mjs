// What the page has inside of its programs in C: their sources, and the tables of their lines.
import { unpacked } from "./packed_texts.mjs";

let shipped = null; // {tables, sources}
const inside = () => (shipped ??= JSON.parse(unpacked(globalThis.PAGE_DATA.c)));
const own = (texts, name) => (Object.hasOwn(texts, name) ? texts[name] : "");

/** The table of a program that the page has inside; nothing if it has none. */
export const shipped_table = (name) => own(inside().tables, name);
/** A source that the page has inside; nothing if it has none. */
export const shipped_source = (name) => own(inside().sources, name);
