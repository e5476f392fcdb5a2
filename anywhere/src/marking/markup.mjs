// Texts within HTML and XML: no letter of a student's begins a tag, ends a value or is one that XML hasn't.
import { shown } from "./shown.mjs";

const ENTITIES = { "&": "&amp;", "<": "&lt;", ">": "&gt;", '"': "&quot;", "'": "&#39;" };

/** A text as it stands between tags, or in the quotes of an attribute. */
export const escaped = (text) => shown(text ?? "").replace(/[&<>"']/g, (letter) => ENTITIES[letter]);
