// The program cgrlist for JavaScript: a plan's text in, its routes out, as the proved module has them.
//
//     import { Plan } from "./cgrlist.mjs";
//     const plan = await Plan.read(text);
//     const { routes } = await plan.first({ from: 31, to: 1, at: "2030/01/01-00:45:00", count: 3 });
//
// The module cgrlist.wasm.gz lies beside this file. Browsers run it, Deno, and Node from version 20 on. Here its texts
// become objects. Times are seconds since 1970 in UTC; they, contacts' numbers and ranks are numbers. Nodes and rates go up to 2 ** 64 - 1, so they are BigInts, as 31n; where a node
// is asked for, a number or a text is taken, too.

import { CgrlistError, NO_PROGRAM } from "./errors.mjs";
import { Program, compiledModule, engineLack } from "./program.mjs";
import { answersIn, explanationOf, linesIn, linesOf, pageOf, standingIn, textsOf, word } from "./texts.mjs";

export { Engine } from "./engine.mjs";
export { CgrlistError, HOP_FAULTS, NO_PROGRAM, REPAIRS, SESSION_FAULTS, STOPPED } from "./errors.mjs";
export { programTime as timeText, secondsOf } from "./texts.mjs";

// ---- The module -------------------------------------------------------------------------------------------------

/** The bytes of the module beside this file, compressed. */
export async function moduleBytes() {
  const place = new URL("cgrlist.wasm.gz", import.meta.url);
  if (globalThis.process?.versions?.node) {
    const { readFile } = await import("node:fs/promises");
    return readFile(place);
  }
  return (await fetch(place)).arrayBuffer();
}

/** The module of some bytes in the thread that asks, which waits for each answer. */
export async function programOf(bytes) {
  const without = engineLack();
  if (without) {
    throw new CgrlistError(NO_PROGRAM, without);
  }
  return new Program(await compiledModule(await bytes));
}

let program;

/** The answer of a run over texts; status 1, of `verify`, is no refusal. */
async function asked(engine, run, texts) {
  const answer = await (await engine).ask(run, texts);
  if (answer.status > 1) {
    throw new CgrlistError(answer.status, answer.message);
  }
  return answer;
}

// ---- Plans ---------------------------------------------------------------------------------------------------------

/** A contact plan, over which the module is asked. It parses the plan's text for each answer. */
export class Plan {
  #engine;

  /** Use `Plan.read`. */
  constructor(engine, text, canonical, checked) {
    this.#engine = engine;
    this.text = text;
    this.canonical = canonical;
    Object.assign(this, standingIn(canonical));
    const nodes = new Set(this.contacts.flatMap(({ from, to }) => [from, to]));
    this.nodes = [...nodes].sort((one, other) => (one < other ? -1 : 1));
    const [contacts, ranges, count, withoutLight, digest] = linesIn(checked).map((line) => line.split(" ").at(-1));
    this.counts = { contacts: +contacts, ranges: +ranges, nodes: +count, withoutLight: +withoutLight };
    this.digest = digest;
  }

  /** Reads a plan's text or its bytes; an engine in a worker may be given, or else the module runs in this thread. */
  static async read(text, engine = (program ??= programOf(moduleBytes()))) {
    const { report: canonical } = await asked(engine, "canonical", { plan: text });
    const { report: checked } = await asked(engine, "check", { plan: text });
    return new Plan(engine, text, canonical, checked);
  }

  #ask(run, texts) {
    return asked(this.#engine, run, { plan: this.text, ...texts });
  }

  /** The first routes of a request; with `keep` also the session text after them. */
  async first({ count = 10, keep = false, ...request }) {
    const { report, session } = await this.#ask("first", { ...textsOf(request), count: word(count), keep });
    return { ...pageOf(linesIn(report)), ...(keep && { session }) };
  }

  /** The routes after those of a session text. */
  async next({ session: before, count = 10, keep = false }) {
    const { report, session } = await this.#ask("next", { session: before, count: word(count), keep });
    return { ...pageOf(linesIn(report)), ...(keep && { session }) };
  }

  /** Whether a text is the session text of a rank in the list of its request. */
  async verify(session) {
    return (await this.#ask("verify", { session })).status === 0;
  }

  /** What a list of contacts does for a request, hop by hop, and then the route or the first fault. */
  async explain(request, contacts) {
    const { report } = await this.#ask("explain", { ...textsOf(request), contacts: word(contacts) });
    return explanationOf(linesIn(report));
  }

  /** The first routes of each of some requests, or of a text of such lines. */
  async many(requests, count = 10) {
    const { report } = await this.#ask("many", { requests: linesOf(requests), count: word(count) });
    return answersIn(report, "request ").map(({ line, told }) => ({ line, ...pageOf(told) }));
  }

  /** What each of some lists of contacts does for its request, or each of a text of such lines. */
  async follow(lists) {
    const { report } = await this.#ask("follow", { lists: linesOf(lists) });
    return answersIn(report, "list ").map(({ line, told }) => ({ line, ...explanationOf(told) }));
  }
}
