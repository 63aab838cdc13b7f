// The module in a worker of a page, so that nothing of the page waits.

import { CgrlistError, NO_PROGRAM, STOPPED } from "./errors.mjs";
import { Program, compiledModule, engineLack } from "./program.mjs";

/**
 * What the worker does: the first message has the module, which is compiled and handed back, and each later one a question.
 * A browser compiles a function when it is first called. So the first worker asks `first` over a small plan, while the page
 * is laid out, and the other runs as long as nothing else is asked, so that a question waits for one of them at most.
 */
function workerTask() {
  const PAUSE = 50; // milliseconds before each of the other runs
  let program;
  let plan; // the last one, which isn't sent again
  const bytesOf = (text) => (typeof text === "string" ? new TextEncoder().encode(text) : text);
  const warmUp = ([run, ...others], asked) => {
    const { session } = program.ask(run, asked);
    if (others.length) {
      setTimeout(warmUp, PAUSE, others, { session, ...asked });
    }
  };
  const warmUpAll = () => {
    const at = "2030/01/01-00:00:00";
    const nodes = [1, 2, 3, 4, 5];
    const pairs = nodes.flatMap((from) => nodes.filter((to) => to !== from).map((to) => `+0 +9000 ${from} ${to} 1`));
    const small = `@ ${at}\n${pairs.map((pair) => `a range ${pair}\na contact ${pair}\n`).join("")}`;
    const lines = { requests: `1 5 ${at}\n`, lists: `4 1 5 ${at}\n` };
    const asked = { plan: small, from: "1", to: "5", at, count: "8", contacts: "4", keep: true, ...lines };
    warmUp(["first", "many", "follow", "check", "canonical", "next", "verify", "explain"], asked);
  };
  const begin = async (given) => {
    const module = await compiledModule(given);
    program = new Program(module);
    if (module !== given) {
      warmUpAll();
    }
    return module;
  };
  const answerTo = ({ module, run, texts }) => {
    if (module) {
      return begin(module);
    }
    plan = "plan" in texts ? bytesOf(texts.plan) : plan;
    return program.bytes(run, { ...texts, plan });
  };
  globalThis.onmessage = async ({ data }) => {
    try {
      const answer = await answerTo(data);
      const texts = Object.values(answer).filter((it) => it instanceof Uint8Array);
      globalThis.postMessage({ answer }, texts.map((it) => it.buffer)); // handed over, not copied
    } catch (error) {
      globalThis.postMessage({ failure: String(error) });
    }
  };
}

/** The module's runs in a worker of a page. One question runs at a time, and those that come meanwhile wait. */
export class Engine {
  #module;
  #source;
  #worker;
  #sent; // the text of the last plan that the worker was sent
  #running; // the question that runs, or the start of a worker
  #waiting = [];

  /** What a page may say: "starting", "ready", or why there is no engine here. */
  state = "starting";

  /** The state once it is no longer "starting". */
  started;

  /** @param module the module's bytes, which may be compressed or in base 64, or a promise of them */
  constructor(module) {
    this.started = this.#start(module);
  }

  async #start(module) {
    try {
      const without = engineLack();
      if (without) {
        throw new Error(without);
      }
      const begun = this.#employ(); // before the module is there
      this.#worker.postMessage({ module: await module });
      this.#module = await begun;
      this.state = "ready";
    } catch (error) {
      this.state = error.message;
      this.#worker?.terminate();
    }
    this.#goOn();
    return this.state;
  }

  /** Begins a worker, which is sent the module next, and hands it on compiled. */
  #employ() {
    const parts = [`${Program}\n${compiledModule}\n(${workerTask})()`];
    this.#source ??= URL.createObjectURL(new Blob(parts, { type: "text/javascript" }));
    this.#worker = new Worker(this.#source);
    this.#sent = undefined;
    this.#worker.onmessage = ({ data }) => this.#end(data);
    this.#worker.onerror = ({ message }) => this.#replace(new CgrlistError(NO_PROGRAM, message || "the worker ended"));
    return new Promise((done, refuse) => (this.#running = { done, refuse }));
  }

  /** Ends the question that runs by its answer, or by what it failed with. */
  #end({ answer, failure }) {
    const { done, refuse, run } = this.#running;
    this.#running = undefined;
    if (failure === undefined) {
      done(run ? Program.decoded(answer) : answer);
    } else {
      refuse(new CgrlistError(NO_PROGRAM, failure));
    }
    this.#goOn();
  }

  /** Ends the worker, and refuses the question that runs. Another worker goes on, unless this was the first one's start. */
  #replace(error) {
    const { refuse } = this.#running ?? {};
    this.#worker.terminate();
    if (this.state === "ready") {
      this.#employ().catch(({ message }) => (this.state = message));
      this.#worker.postMessage({ module: this.#module });
    }
    refuse?.(error);
  }

  /** Asks what waits next, if the worker is idle, or refuses all that wait, if there is none. */
  #goOn() {
    while (!["starting", "ready"].includes(this.state) && this.#waiting.length) {
      this.#waiting.shift().refuse(new CgrlistError(NO_PROGRAM, this.state));
    }
    if (this.state === "ready" && !this.#running && this.#waiting.length) {
      this.#running = this.#waiting.shift();
      this.#send(this.#running);
    }
  }

  /** Sends a question to the worker; the text of a plan is sent once, since it may have megabytes. */
  #send({ run, texts }) {
    const { plan, ...others } = texts;
    const isSent = typeof plan === "string" && plan === this.#sent;
    this.#worker.postMessage({ run, texts: isSent ? others : { ...others, plan } });
    this.#sent = plan;
  }

  /**
   * The answer of a run over texts: `{ status, report, session, message, milliseconds }`, where a text that isn't there is
   * empty. It is refused with status 125 if there is no engine, and with 130 if it was stopped.
   */
  ask(run, texts) {
    return new Promise((done, refuse) => {
      this.#waiting.push({ run, texts: { ...texts }, done, refuse });
      this.#goOn();
    });
  }

  /** Stops the question that runs, or the first one that waits. Another worker answers the others and later ones. */
  stop() {
    const stopped = new CgrlistError(STOPPED, "stopped");
    if (this.state === "ready" && this.#running?.run) {
      this.#replace(stopped);
    } else {
      this.#waiting.shift()?.refuse(stopped);
    }
  }
}
