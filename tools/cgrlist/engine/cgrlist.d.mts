// The types of cgrlist.mjs. Times are whole seconds since 1970 in UTC.

/** A node's number, from 1 to 2 ** 64 - 1. */
export type Node = bigint;

/** A node where one is asked for. */
export type GivenNode = bigint | number | string;

/** Bytes of a module, which may be compressed. */
export type Bytes = ArrayBuffer | Uint8Array;

/** A contact that stands. */
export interface Contact {
  number: number;
  start: number;
  end: number;
  from: Node;
  to: Node;
  /** Bytes per second, up to 2 ** 64 - 1. */
  rate: bigint;
  /** The light time in force at the start, in seconds; null if there is none. */
  light: number | null;
}

/** A range that stands: the light time between two nodes, in both directions if `one` is the smaller node. */
export interface Range {
  one: Node;
  other: Node;
  start: number;
  end: number;
  light: number;
}

/** What stands in a plan, as `cgrlist check` counts it. */
export interface Counts {
  contacts: number;
  ranges: number;
  nodes: number;
  withoutLight: number;
}

/** What is asked. What is left out isn't given; what isn't right is refused with status 2. */
export interface Request {
  from: GivenNode;
  to: GivenNode;
  /** When the bundle is at the source: seconds, a date, or `yyyy/mm/dd-hh:mm:ss`. */
  at: number | Date | string;
  /** A margin on each light time, in parts in a million of it: 0 to 1000000. */
  marginPpm?: number | string;
  /** The most contacts of a route: 1 to 20000. */
  maxHops?: number | string;
  /** Nodes that no route passes, rising; at most 16. */
  avoid?: GivenNode[] | string;
}

/** Contacts in the order in which they are used. */
export type Contacts = number[] | string;

export interface Route {
  /** The place in the list, from 1; undefined if that isn't told. */
  rank?: number;
  /** The best-case delivery time. */
  delivery: number;
  /** The number of contacts. */
  hops: number;
  /** The node that the first contact reaches. */
  entry: Node;
  /** The earliest end of the contacts. */
  until: number;
  contacts: number[];
}

/** Routes, best first. */
export interface Page {
  routes: Route[];
  /** Whether further routes follow. */
  more: boolean;
  /** The session text after these routes, if it was asked for. */
  session?: string;
}

export interface Hop {
  contact: number;
  from: Node;
  to: Node;
  send: number;
  arrive: number;
}

/** What a list of contacts does: its hops, and then either the route or the first fault. */
export interface Explanation {
  hops: Hop[];
  route?: Route;
  /** The hop, from 1, and its fault; no hop if the list doesn't end at the destination. */
  fault?: { hop?: number; reason: string };
}

/** What is answered to a line of requests or lists. */
export type AnswerTo<T> = T & { line: string };

/** The names of the module's runs. */
export type Run = "check" | "first" | "next" | "verify" | "explain" | "many" | "follow" | "canonical";

/** What a run takes: texts, or what is written as one; bytes as they are. */
export interface Texts {
  plan: string | Uint8Array;
  from?: unknown;
  to?: unknown;
  at?: unknown;
  marginPpm?: unknown;
  maxHops?: unknown;
  avoid?: unknown;
  count?: unknown;
  contacts?: unknown;
  /** Whether `first` and `next` leave a session text. */
  keep?: boolean;
  session?: string | Uint8Array;
  requests?: string | Uint8Array;
  lists?: string | Uint8Array;
}

/** What a run answers, byte for byte as the program; the status is the program's. */
export interface Answer {
  status: number;
  report: string;
  session: string;
  message: string;
  milliseconds: number;
}

/** What runs the module: `Engine`, or what `programOf` gives. */
export interface Answering {
  ask(run: Run, texts: Texts): Answer | Promise<Answer>;
}

export class Plan {
  private constructor();
  /** Reads a plan's text or its bytes. Without an engine, the module runs in this thread. */
  static read(text: string | Uint8Array, engine?: Answering | Promise<Answering>): Promise<Plan>;
  readonly text: string | Uint8Array;
  readonly contacts: Contact[];
  readonly ranges: Range[];
  /** The nodes that send or receive a contact, rising. */
  readonly nodes: Node[];
  readonly counts: Counts;
  /** SHA-256 of the canonical text, in 64 digits. */
  readonly digest: string;
  readonly canonical: string;
  /** The first routes, 10 if no count is given; with `keep` also the session text. */
  first(asked: Request & { count?: number; keep?: boolean }): Promise<Page>;
  /** The routes after a session text. */
  next(asked: { session: string; count?: number; keep?: boolean }): Promise<Page>;
  /** Whether a text is the session text of a rank in the list of its request. */
  verify(session: string): Promise<boolean>;
  explain(request: Request, contacts: Contacts): Promise<Explanation>;
  /** The first routes of each request. */
  many(requests: Request[] | string, count?: number): Promise<AnswerTo<Page>[]>;
  /** What each list does for its request. */
  follow(lists: (Request & { contacts: Contacts })[] | string): Promise<AnswerTo<Explanation>[]>;
}

/** The module in a worker of a page. */
export class Engine implements Answering {
  constructor(module: Bytes | string | Promise<Bytes | string>);
  /** "starting", "ready", or why there is no engine. */
  state: string;
  /** The state once it isn't "starting". */
  started: Promise<string>;
  ask(run: Run, texts: Texts): Promise<Answer>;
  /** Stops the question that runs, or the first one that waits. */
  stop(): void;
}

/** What is refused. */
export class CgrlistError extends Error {
  constructor(status: number, told: string);
  /** The program's, from 2 to 6; NO_PROGRAM or STOPPED. */
  status: number;
  /** The line that is refused, from 1. */
  line?: number;
  /** What may be wrong, and its repair. */
  hint?: string;
}

export const NO_PROGRAM: 125;
export const STOPPED: 130;
/** Of each reason for which a line of a plan is refused, its repair. */
export const REPAIRS: Record<string, string>;
/** Of each reason for which contacts make no route, what it means. */
export const HOP_FAULTS: Record<string, string>;
/** Of each reason for which a session text is refused, what is wrong with it. */
export const SESSION_FAULTS: Record<string, string>;
/** The bytes of the module beside this file. */
export function moduleBytes(): Promise<Bytes>;
/** The module of some bytes in this thread. */
export function programOf(bytes: Bytes | string | Promise<Bytes | string>): Promise<Answering>;
export function timeText(seconds: number): string;
export function secondsOf(text: string): number;
