// The module in the thread that asks: what WebAssembly can't say of itself, and has to be trusted.

/**
 * The module's runs over texts.
 *
 * The proofs end at the module's exports. They suppose what `once` does: that all values lie in the module's memory above
 * its own data, apart from each other, each address at a multiple of 16, and that the size of the lent memory is one that
 * the allocator takes. The class uses nothing outside it, since its text is also that of the page's worker.
 */
export class Program {
  // The texts of a call, and those that it answers, in the order of the structs that the exports take.
  static #GIVEN = ["plan", "session", "requests", "lists", "from", "to", "at", "marginPpm", "maxHops", "avoid", "count", "contacts"];
  static #TOLD = ["report", "session", "message"];

  static #MEMORY = 6; // the status of a run for which the lent memory or a buffer didn't suffice
  static #MOST = 2 ** 31; // bytes that are lent at most
  static #LONGEST = 2 ** 28; // bytes of a text that is answered: JavaScript has no string of some more
  static #KEPT = 2 ** 28; // bytes of an instance's memory, over which it isn't used again
  static #WORD = 8; // bytes of an address or a length
  static #PAGE = 65536; // bytes by which memory grows
  static #BLOCK = 4096; // the allocator takes memory of any number of blocks, less 16 bytes
  static #encoder = new TextEncoder();
  static #decoder = new TextDecoder();

  #module;
  #exports;
  #lent;
  #rooms;

  /** @param module the compiled module */
  constructor(module) {
    this.#module = module;
    this.#begin();
  }

  /** Begins with a new instance. What it lends at first is seldom too little, and what isn't touched costs nothing. */
  #begin() {
    this.#exports = new WebAssembly.Instance(this.#module).exports;
    this.#lent = 2 ** 25;
    this.#rooms = { report: 2 ** 22, session: 2 ** 22, message: 2 ** 12 };
  }

  /** The answer of a run over texts. */
  ask(run, texts) {
    return Program.decoded(this.bytes(run, texts));
  }

  /** An answer with its bytes as texts. */
  static decoded(answer) {
    const texts = Program.#TOLD.map((name) => [name, Program.#decoder.decode(answer[name])]);
    return { ...answer, ...Object.fromEntries(texts) };
  }

  /**
   * The answer of a run as bytes. More memory is lent as long as the run asks for it; if there is no more, or if a text of
   * the answer has more than 256 MB, the status is 6.
   */
  bytes(run, texts) {
    const since = performance.now();
    let answer;
    do {
      answer = this.once(run, texts, this.#lent, this.#rooms);
    } while (answer.status === Program.#MEMORY && this.#lendMore(answer.lengths));
    const isRefused = answer.status === Program.#MEMORY;
    if (isRefused || this.#exports.memory.buffer.byteLength > Program.#KEPT) {
      this.#begin(); // with little memory again
    }
    const { lengths, ...told } = isRefused ? Program.#refused() : answer;
    return { ...told, milliseconds: performance.now() - since };
  }

  static #refused() {
    const [report, session, message] = ["", "", "cgrlist: no memory\n"].map(Program.#bytesOf);
    return { status: Program.#MEMORY, report, session, message };
  }

  /** Makes room for texts of these lengths or, where there is room, doubles the lent memory; false if there is no more. */
  #lendMore(lengths) {
    if (!lengths || Object.values(lengths).some((length) => length > Program.#LONGEST)) {
      return false; // the memory doesn't grow, or a text is too long
    }
    const short = Object.keys(lengths).filter((name) => lengths[name] > this.#rooms[name]);
    short.forEach((name) => (this.#rooms[name] = lengths[name]));
    if (!short.length) {
      this.#lent *= 2;
    }
    return this.#lent <= Program.#MOST;
  }

  /**
   * The bytes of one call's answer with so much lent memory and room for texts, and their lengths if the call was made.
   * Status 6 says that this isn't enough. An instance whose call didn't end, or didn't give the memory back, isn't used
   * again.
   */
  once(run, texts, lent, rooms) {
    const given = Program.#GIVEN.map((name) => Program.#bytesOf(texts[name]));
    const layout = this.#layout(given, lent, rooms);
    if (!this.#growTo(layout.end)) {
      return Program.#refused();
    }
    this.#write(given, texts.keep, layout);
    try {
      const { memory, asked, outputs } = layout;
      const status = this.#exports[`cgrlist_${run}`](...[memory, asked, outputs].map(({ at }) => BigInt(at)));
      return { status, ...this.#read(layout) };
    } catch (error) {
      this.#begin();
      throw error;
    }
  }

  static #bytesOf(value) {
    return value instanceof Uint8Array ? value : Program.#encoder.encode(value ?? "");
  }

  /** Where all values of a call lie, each as an address and a size, one after the other from the end of the module's data. */
  #layout(given, lent, rooms) {
    let end = Number(this.#exports.__heap_base.value);
    const place = (size) => {
      const at = Math.ceil(end / 16) * 16;
      end = at + size;
      return { at, size };
    };
    const memory = place(2 * Program.#WORD);
    const asked = place((2 * Program.#GIVEN.length + 1) * Program.#WORD);
    const outputs = place(3 * Program.#TOLD.length * Program.#WORD);
    const texts = given.map((bytes) => place(bytes.length));
    const buffers = Program.#TOLD.map((name) => place(rooms[name] ?? 0));
    const heap = place(lent ? Math.ceil(lent / Program.#BLOCK) * Program.#BLOCK - 16 : 0);
    return { memory, asked, outputs, texts, buffers, heap, end };
  }

  /** Makes the memory as large as that; false if it can't be. */
  #growTo(end) {
    const { memory } = this.#exports;
    const pages = Math.ceil((end - memory.buffer.byteLength) / Program.#PAGE);
    try {
      return pages <= 0 || memory.grow(pages) >= 0;
    } catch {
      return false;
    }
  }

  /** Writes the texts, and the structs that say where they, the buffers and the lent memory lie. */
  #write(given, keep, { memory, asked, outputs, texts, buffers, heap }) {
    const bytes = new Uint8Array(this.#exports.memory.buffer);
    given.forEach((text, place) => bytes.set(text, texts[place].at));
    const words = ({ at, size }) => [at, size];
    this.#put(memory, words(heap));
    this.#put(asked, [...texts.flatMap(words), keep ? 1 : 0]);
    this.#put(outputs, buffers.flatMap((buffer) => [...words(buffer), 0]));
  }

  #put(struct, words) {
    this.#words(struct).set(words.map(BigInt));
  }

  /** The words of a struct, as they lie there until the memory grows. */
  #words({ at, size }) {
    return new BigUint64Array(this.#exports.memory.buffer, at, size / Program.#WORD);
  }

  /** Copies of what is in the buffers after a call, and the texts' lengths, which may be larger. */
  #read({ memory, outputs, buffers, heap }) {
    const [words, bytes] = [this.#words(outputs), new Uint8Array(this.#exports.memory.buffer)];
    const answer = { lengths: {} };
    Program.#TOLD.forEach((name, place) => {
      const { at, size } = buffers[place];
      const length = Number(words[3 * place + 2]);
      answer[name] = bytes.slice(at, at + Math.min(length, size));
      answer.lengths[name] = length;
    });
    if (this.#words(memory)[1] !== BigInt(heap.size)) {
      this.#begin();
    }
    return answer;
  }
}

/** Why this JavaScript can't run the module; an empty text if it can. */
export function engineLack() {
  if (!globalThis.WebAssembly) {
    return "no WebAssembly";
  }
  // The newest that the module has: a function that copies memory.
  const type = [1, 4, 1, 96, 0, 0];
  const memory = [5, 3, 1, 0, 1];
  const body = [10, 14, 1, 12, 0, 65, 0, 65, 0, 65, 0, 252, 10, 0, 0, 11];
  const smallest = Uint8Array.of(0, 97, 115, 109, 1, 0, 0, 0, ...type, 3, 2, 1, 0, ...memory, ...body);
  return WebAssembly.validate(smallest) ? "" : "no bulk memory operations in WebAssembly";
}

/** The compiled module of its bytes, which may be compressed or in base 64. The text of this is the worker's, too. */
export async function compiledModule(given) {
  if (given instanceof WebAssembly.Module) {
    return given;
  }
  const decode = (text) => Uint8Array.fromBase64?.(text) ?? Uint8Array.from(atob(text), (it) => it.charCodeAt(0));
  const bytes = typeof given === "string" ? decode(given) : new Uint8Array(given);
  const isGzip = bytes[0] === 0x1f && bytes[1] === 0x8b;
  const plain = isGzip ? new Blob([bytes]).stream().pipeThrough(new DecompressionStream("gzip")) : bytes;
  return WebAssembly.compile(await new Response(plain).arrayBuffer());
}
