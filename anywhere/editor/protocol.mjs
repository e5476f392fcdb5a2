// Messages of the Debug Adapter Protocol on two streams: each is a text of JSON after a head that tells its length in
// bytes (the protocol's "Base Protocol").

const END_OF_HEAD = "\r\n\r\n";
const MOST_OF_HEAD = 4096, MOST_BYTES = 64 * 1024 * 1024; // bytes: of a head, and of one message

/** The text of a message is no JSON; the next message can be read. */
export class NoMessage extends Error {}

/**
 * Takes bytes as they come, and tells each whole message. `tell_wrong` is told a text that is no JSON. A head without a
 * length, or one that is too long, is thrown: nothing that comes after it can be read.
 */
export class Reader {
  constructor(tell, tell_wrong = () => {}) {
    Object.assign(this, { tell, tell_wrong, parts: [], held: 0, wanted: 0 });
  }

  take(bytes) {
    this.parts.push(bytes);
    this.held += bytes.length;
    // The parts of a long message are joined once, when all of them are there.
    while (this.held > 0 && this.held >= this.wanted) if (!this.take_next(this.joined())) return;
  }

  joined() {
    if (this.parts.length > 1) this.parts = [Buffer.concat(this.parts)];
    return this.parts[0];
  }

  /** Takes the first message of all that is held; false if it isn't whole yet. */
  take_next(held) {
    const end = held.subarray(0, MOST_OF_HEAD).indexOf(END_OF_HEAD), from = end + END_OF_HEAD.length;
    if (end < 0 && held.length < MOST_OF_HEAD) return false;
    const to = from + (end < 0 ? NaN : length_in(held.toString("latin1", 0, end)));
    if (!(to <= from + MOST_BYTES)) throw new Error("a message begins with no Content-Length that can be taken");
    this.wanted = to;
    if (held.length < to) return false;
    this.parts = [held.subarray(to)];
    this.held = held.length - to;
    this.wanted = 0;
    this.read(held.toString("utf8", from, to));
    return true;
  }

  read(text) {
    let message;
    try {
      message = JSON.parse(text);
    } catch (error) {
      this.tell_wrong(new NoMessage(`a message is no JSON: ${error.message}`));
      return;
    }
    this.tell(message);
  }
}

/** The length that a head tells; NaN if it tells none. */
const length_in = (head) => Number(/^Content-Length: *(\d{1,10})\r?$/im.exec(head)?.[1] ?? NaN);

/** Writes messages, each with its number. */
export class Writer {
  constructor(write) {
    this.write = write;
    this.count = 0; // messages that were sent
  }

  send(message) {
    const text = JSON.stringify({ seq: ++this.count, ...message });
    this.write(`Content-Length: ${Buffer.byteLength(text)}${END_OF_HEAD}${text}`);
  }

  event(event, body = {}) {
    this.send({ type: "event", event, body });
  }

  answer(request, body = {}) {
    this.send({ type: "response", request_seq: request.seq, command: request.command, success: true, body });
  }

  refuse(request, words) {
    const { seq, command } = request, error = { id: 1, format: words.replace(/[{}]/g, "'"), showUser: true };
    this.send({ type: "response", request_seq: seq, command, success: false, message: words, body: { error } });
  }
}
