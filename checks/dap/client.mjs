// A client of the debug adapter: it starts `node xv.mjs --dap`, sends requests, and waits for what comes.
import { spawn } from "node:child_process";
import { appendFileSync } from "node:fs";
import { fileURLToPath } from "node:url";
import { Reader, Writer } from "../../anywhere/editor/protocol.mjs";

const XV = fileURLToPath(new URL("../../xv.mjs", import.meta.url));
const PATIENCE = 1000 * Number(process.env.PATIENCE ?? 60);

export class Client {
  constructor(cwd, xv = XV) {
    this.adapter = spawn(process.execPath, [xv, "--dap"], { cwd, stdio: ["pipe", "pipe", "inherit"] });
    this.writer = new Writer((text) => this.adapter.stdin.write(text));
    this.waiting = [];
    this.heard = []; // events that nobody has waited for yet
    this.output = "";
    const reader = new Reader((message) => this.take(message));
    this.adapter.stdout.on("data", (bytes) => {
      if (process.env.HEARD) appendFileSync(process.env.HEARD, bytes); // for who looks at all that came
      reader.take(bytes);
    });
    this.ended = new Promise((tell) => this.adapter.on("exit", tell));
  }

  take(message) {
    if (message.type === "event" && message.event === "output") this.output += message.body.output;
    const k = this.waiting.findIndex((it) => it.fits(message));
    if (k >= 0) this.waiting.splice(k, 1)[0].tell(message);
    else if (message.type === "event") this.heard.push(message);
  }

  until(what, fits) {
    return new Promise((tell, fail) => {
      const timer = setTimeout(() => fail(new Error(`${what} didn't come`)), PATIENCE);
      this.waiting.push({ fits, tell: (it) => { clearTimeout(timer); tell(it); } });
    });
  }

  /** Waits until the console has shown so much that a text is in it, which then counts as read. */
  async until_output(text) {
    while (!this.output.includes(text)) await this.until(`the output ${text}`, (it) => it.event === "output");
    this.output = this.output.slice(this.output.indexOf(text) + text.length);
  }

  /** The next event of this name, that was heard already or will be. */
  event(name) {
    const k = this.heard.findIndex((it) => it.event === name);
    if (k >= 0) return Promise.resolve(this.heard.splice(k, 1)[0].body);
    return this.until(name, (it) => it.type === "event" && it.event === name).then((it) => it.body);
  }

  /** The answer to a request; an error with its words if it is refused. */
  async ask(command, args = {}) {
    const seq = this.writer.count + 1, is_answer = (it) => it.type === "response" && it.request_seq === seq;
    const answer = this.until(command, is_answer);
    this.writer.send({ type: "request", command, arguments: args });
    const { success, message, body } = await answer;
    if (!success) throw new Error(message);
    return body;
  }

  /** A request after which the machine stops: where it stops. */
  async stop_after(command, args = {}) {
    await this.ask(command, args);
    return this.event("stopped");
  }

  /** The calls of a thread, as `main wc.c:24`. */
  async calls(threadId) {
    const { stackFrames } = await this.ask("stackTrace", { threadId });
    return stackFrames.map((it) => `${it.name}${it.source ? ` ${it.source.name}:${it.line}` : ""}`);
  }
}
