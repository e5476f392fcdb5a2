// The worker that compiles programs in C: sources go in, and programs, tables of their lines and messages come out. It
// stands with the compiler and its library in nektavoly-c.js, and is begun when there is a source in C.
import { compile, plain_path, programs_of } from "../../anywhere/src/c_build.mjs";

const WORDS = ["-Wall"];
let compiler = null, library = [];
const objects = new Map(); // what was compiled last, by the names of sources: {key, object, messages}

const bytes_of = (text) => new TextEncoder().encode(text);

/** Takes the compiler: its module, and the headers and objects of its library. */
function begin({ wasm, headers, objects: own }) {
  const texts = new Map(Object.entries(headers).map(([name, text]) => [`include/${name}`, bytes_of(text)]));
  compiler = { module: new WebAssembly.Module(wasm), header: (name) => texts.get(name) };
  library = own;
}

/** What comes of a source, among others that it may include: of the last time, if all of them are the same. */
function compiled(name, sources) {
  const used = sources.filter((it) => it.name === name || it.name.endsWith(".h"));
  const key = JSON.stringify(used), last = objects.get(name);
  if (last?.key === key) return last;
  const texts = new Map(sources.map((it) => [it.name, bytes_of(it.text)]));
  const made = { key, ...compile(compiler, name, WORDS, (path) => texts.get(plain_path(path))) };
  objects.set(name, made);
  return made;
}

/** Programs of all sources that have a main, and what is told of each source. */
function build({ id, sources }) {
  const names = sources.map((it) => it.name).filter((name) => name.endsWith(".c"));
  const all = names.map((name) => ({ name, ...compiled(name, sources) }));
  const whole = all.filter((it) => it.object).map((it) => [it.name, it.object]);
  return { id, messages: all.flatMap((it) => it.messages), programs: programs_of(whole, library) };
}

onmessage = ({ data }) => {
  try {
    if (data.begin) begin(data.begin); else postMessage(build(data));
  } catch (error) {
    postMessage({ id: data.id, failed: error.message });
  }
};
