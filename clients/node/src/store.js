// A store, whose calls are answered as promises over one run of the program.

import { Refused, StoreFailed } from './errors.js';
import { parse, stringify } from './json.js';
import { start, wordsOf } from './program.js';
import { Queue } from './queue.js';

// Enough lines for writes to share their syncs, few enough for replies to come early in a long batch.
const WINDOW = 1024;
// The most lines of a batch that wait for a reply at once.
const IN_FLIGHT = 4096;
// The most lines that are written to the program at once.
const MOST_LINES = 4096;
// A line that is sure to be refused.
const FILLER = '{}';

/**
 * A store in a folder, which this process alone has until `close`. Options: `program` (else the environment variable TUPLE_STORE,
 * else `tuple_store` on the path), and those of the program: `partitions`, `window`, `memory`, `names`, `docs`, `merge`, `limit`.
 *
 * The program answers a window of lines at once, and syncs their writes together. So all calls that are made in one turn of the
 * event loop are sent together, followed by a line that closes the window: nobody waits for further lines.
 */
export class Store {
  #child;
  #window;
  // Calls that are to be sent, and then those that wait for a reply, each in order.
  #unsent = new Queue();
  #asked = new Queue();
  #isSending = false;
  // Whether the last line that was sent is a scan or a collect whose reply is awaited: it says whether a scan is out then.
  #isHeld = false;
  #scanIsOut = false;
  // Whether the pipe to the program is full.
  #isFull = false;
  #isClosed = false;
  // How the program ended: undefined while it runs, else null or an error.
  #end;
  #ended;

  constructor(folder, options = {}) {
    if (typeof folder !== 'string') throw new TypeError(`a store is in a folder, and ${folder} is no path`);
    this.#window = options.window ?? WINDOW;
    const program = options.program ?? process.env.TUPLE_STORE ?? 'tuple_store';
    let hearEnd;
    this.#ended = new Promise((resolve) => {
      hearEnd = (error) => resolve(this.#hearEnd(error));
    });
    const words = wordsOf(folder, { ...options, window: this.#window });
    this.#child = start(program, words, (line) => this.#hear(line), hearEnd);
    this.#child.stdin.on('drain', () => {
      this.#isFull = false;
      this.#sendSoon();
    });
  }

  /** The number of the program's process, while it runs. */
  get pid() {
    return this.#end === undefined ? this.#child.pid : undefined;
  }

  /** Stores a document under its `id`. Answers whether it replaced one. */
  async upsert(doc) {
    return (await this.#call({ op: 'upsert', doc })).replaced;
  }

  /** The document of a key, or null. */
  async get(id) {
    return (await this.#call({ op: 'get', id })).doc;
  }

  /** Takes out the document of a key. Answers whether it had one. */
  async delete(id) {
    return (await this.#call({ op: 'delete', id })).found;
  }

  /** A row `{ id, values }` for each document in which the path reaches a value and, where `eq` is given, one equal to it. */
  async query(path, options = {}) {
    return (await this.#call(asking('query', path, options))).rows;
  }

  /** The schema of each partition. */
  async schema() {
    return (await this.#call({ op: 'schema' })).schemas;
  }

  /** Moves what is in the log into a component. */
  async flush() {
    await this.#call({ op: 'flush' });
  }

  /** Starts a scan, which finds the rows of a query while further calls are answered. */
  async scan(path, options = {}) {
    await this.#call(asking('scan', path, options));
  }

  /** Waits for the scan: `{ rows, upto }`, where `upto` has the number of writes that the rows are over, by partition. */
  async collect() {
    return this.#call({ op: 'collect' });
  }

  /**
   * Sends many requests, such as `{ op: 'upsert', doc }`, without waiting for each reply. Gives the replies in order, as the
   * program writes them: a refused line is `{ refused: 'key' }` here, and ends nothing.
   */
  async *batch(requests, { inFlight = IN_FLIGHT } = {}) {
    const waiting = new Queue();
    for await (const request of requests) {
      const reply = this.#ask(request);
      // Whoever takes this reply hears of its error; until then it is nobody's.
      reply.catch(() => {});
      waiting.put(reply);
      if (waiting.length >= inFlight) yield await waiting.take();
    }
    while (waiting.length > 0) yield await waiting.take();
  }

  /** Ends the input, and waits for the replies that are still to come and for the end of the program. */
  async close() {
    this.#isClosed = true;
    this.#send();
    const error = await this.#ended;
    if (error) throw error;
  }

  [Symbol.asyncDispose]() {
    return this.close();
  }

  async #call(request) {
    const reply = await this.#ask(request);
    if ('refused' in reply) throw new Refused(reply.refused, request);
    return reply;
  }

  // The reply to a request, also where it is a refusal.
  async #ask(request) {
    const line = stringify(request);
    if (this.#isClosed) throw new Error('the store is closed');
    if (this.#end !== undefined) throw this.#end ?? new StoreFailed({ status: 0 });
    const reply = await new Promise((resolve, reject) => {
      this.#unsent.put({ op: request.op, line, resolve, reject });
      this.#sendSoon();
    });
    return parse(reply);
  }

  #sendSoon() {
    if (this.#isSending) return;
    this.#isSending = true;
    setImmediate(() => {
      this.#isSending = false;
      this.#send();
    });
  }

  // Sends what is to be sent. After a scan or a collect its reply is awaited first: the program answers in order all the same.
  #send() {
    const lines = [];
    while (!this.#isHeld && !this.#isFull && this.#unsent.length > 0 && lines.length < MOST_LINES) {
      const call = this.#unsent.take();
      this.#asked.put(call);
      lines.push(call.line);
      this.#isHeld = call.op === 'scan' || call.op === 'collect';
    }
    if (lines.length > 0) {
      lines.push(...this.#closingLines());
      this.#isFull = !this.#child.stdin.write(`${lines.join('\n')}\n`);
    }
    if (this.#unsent.length > 0 && !this.#isHeld && !this.#isFull) this.#sendSoon();
    if (this.#unsent.length === 0 && this.#isClosed) this.#child.stdin.end();
  }

  // Lines that close the window before them, are refused and change nothing. A collect or a scan closes it, whichever is refused
  // now. Whether a scan is out is not known after one of these, which may have been refused as a line: there the window is filled.
  #closingLines() {
    if (this.#window === 1) return [];
    const refused = this.#scanIsOut ? '{"op":"scan","path":[]}' : '{"op":"collect"}';
    const lines = this.#isHeld ? new Array(Math.max(0, this.#window - 1)).fill(FILLER) : [refused];
    lines.forEach(() => this.#asked.put(null));
    return lines;
  }

  #hear(line) {
    const call = this.#asked.take();
    if (call?.op === 'scan' || call?.op === 'collect') {
      if (line.startsWith('{"scan":')) this.#scanIsOut = true;
      if (line.startsWith('{"rows":')) this.#scanIsOut = false;
      this.#isHeld = false;
      this.#sendSoon();
    }
    call?.resolve(line);
  }

  // Whoever still waits will get no reply.
  #hearEnd(error) {
    this.#end = error;
    for (const calls of [this.#asked, this.#unsent]) {
      while (calls.length > 0) calls.take()?.reject(error ?? new StoreFailed({ status: 0 }));
    }
    return error;
  }
}

// `eq` may be null, so it counts where it is named.
function asking(op, path, options) {
  return options.eq === undefined ? { op, path } : { op, path, eq: options.eq };
}
