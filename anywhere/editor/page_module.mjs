// The proved module of the page, by which a machine runs in JavaScript: it stands in page/nektavoly.html.
import { readFileSync } from "node:fs";

const PAGE = new URL("../../page/nektavoly.html", import.meta.url);

export function page_module() {
  const found = /PAGE_DATA = \{"wasm":"([^"]*)"/.exec(readFileSync(PAGE, "latin1"));
  if (!found) throw new Error("page/nektavoly.html has no module: build it by page/build.sh");
  return new WebAssembly.Module(Buffer.from(found[1], "base64"));
}
