#!/usr/bin/env node
// The object file of a source, as the module of programs/c/tcc makes it, without the words that xv --cc adds: object.mjs SOURCE >OBJECT.
import { readFileSync, writeSync } from "node:fs";
import { run_compiler } from "../../anywhere/src/c_host.mjs";

const [source] = process.argv.slice(2), out = process.env.XV_TCC;
const file_at = (path) => {
  try {
    return new Uint8Array(readFileSync(path.replace(/^%library/, out)));
  } catch {
    return undefined;
  }
};
const { made, told } = run_compiler(new WebAssembly.Module(readFileSync(`${out}/tcc.wasm`)), ["tcc", "-nostdinc", "-I%library/include", "-c", source, "-o", "object.o"], file_at);
writeSync(2, told);
writeSync(1, made.get("object.o"));
