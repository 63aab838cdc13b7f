// The texts of the program: what it is asked, and what it answers as objects. Times are seconds since 1970 in UTC; contacts'
// numbers and ranks are numbers, and nodes and rates BigInts, since they go up to 2 ** 64 - 1.

// ---- What is asked ----------------------------------------------------------------------------------------------

const LAST = 253402300799; // 9999/12/31-23:59:59
export const ANY_HOPS = "20000"; // the limit of a request without one

/** A time as the program writes it. */
export function programTime(seconds) {
  return new Date(seconds * 1000).toISOString().slice(0, 19).replaceAll("-", "/").replace("T", "-");
}

/** The second of a time as the program writes it. */
export function secondsOf(text) {
  const [year, month, day] = [text.slice(0, 4), text.slice(5, 7), text.slice(8, 10)];
  return Date.UTC(year, month - 1, day, text.slice(11, 13), text.slice(14, 16), text.slice(17, 19)) / 1000;
}

export function word(value) {
  return value === undefined || value === null ? "" : String(value);
}

/** A request's values as texts, which the module judges; empty ones aren't given. */
export function textsOf({ from, to, at, marginPpm, maxHops, avoid }) {
  const second = at instanceof Date ? Math.floor(at / 1000) : at;
  const isTime = Number.isInteger(second) && second >= 0 && second <= LAST;
  const limits = { marginPpm: word(marginPpm), maxHops: word(maxHops), avoid: word(avoid) };
  return { from: word(from), to: word(to), at: isTime ? programTime(second) : word(second), ...limits };
}

/** Requests as lines; each may have contacts in front. */
export function linesOf(requests) {
  if (typeof requests === "string") {
    return requests;
  }
  const lines = requests.map((request) => {
    const { from, to, at, marginPpm, maxHops, avoid } = textsOf(request);
    const words = [word(request.contacts), from, to, at, marginPpm || "0", maxHops || ANY_HOPS, avoid];
    return `${words.filter((it) => it).join(" ")}\n`;
  });
  return lines.join("");
}

// ---- What is answered -------------------------------------------------------------------------------------------

/** The lines of a report. */
export function linesIn(report) {
  return report.split("\n").slice(0, -1);
}

/** The answers of a report, each with the line that it answers. */
export function answersIn(report, head) {
  const answers = [];
  for (const line of linesIn(report)) {
    if (line.startsWith(head)) {
      answers.push({ line: line.slice(head.length), told: [] });
    } else {
      answers.at(-1).told.push(line);
    }
  }
  return answers;
}

/** The numbers at the end of a line. A listing has so many that a text of each would take longer than they do. */
function numbersFrom(line, begin) {
  const numbers = [];
  let number = 0;
  for (let at = begin; at < line.length; at += 1) {
    const digit = line.charCodeAt(at) - 48;
    if (digit < 0) {
      numbers.push(number);
      number = 0;
    } else {
      number = 10 * number + digit;
    }
  }
  numbers.push(number);
  return numbers;
}

/** The route of a line; its rank is undefined if the line has none. */
export function routeOf(line) {
  const after = (word) => line.indexOf(word) + word.length;
  const wordAt = (at) => line.slice(at, line.indexOf(" ", at));
  const deliveryAt = after("delivery ");
  const rank = deliveryAt > 9 ? Number(wordAt(0)) : undefined;
  const times = { delivery: secondsOf(wordAt(deliveryAt)), until: secondsOf(wordAt(after("until "))) };
  const contacts = numbersFrom(line, after("contacts "));
  return { rank, ...times, hops: contacts.length, entry: BigInt(wordAt(after("entry "))), contacts };
}

/** The routes of a report's lines, and whether more follow. */
export function pageOf(lines) {
  return { routes: lines.slice(0, -1).map(routeOf), more: lines.at(-1) === "more" };
}

/** The hops of an explanation's lines, and then the route or the fault. */
export function explanationOf(lines) {
  const hops = lines.slice(0, -1).map((line) => {
    const [, , , contact, , from, , to, , send, , arrive] = line.split(" ");
    const times = { send: secondsOf(send), arrive: secondsOf(arrive) };
    return { contact: Number(contact), from: BigInt(from), to: BigInt(to), ...times };
  });
  const [, hop, reason] = /^refused(?: hop (\d+))?: (\w+)$/.exec(lines.at(-1)) ?? [];
  return reason ? { hops, fault: { hop: hop && Number(hop), reason } } : { hops, route: routeOf(lines.at(-1)) };
}

// ---- Plans ------------------------------------------------------------------------------------------------------

/** The light times of a plan's ranges. */
class Lights {
  #ranges = new Map(); // of each ordered pair, by start

  constructor(ranges) {
    for (const range of ranges) {
      const pair = `${range.one} ${range.other}`;
      if (!this.#ranges.has(pair)) {
        this.#ranges.set(pair, []);
      }
      this.#ranges.get(pair).push(range);
    }
  }

  /** The light time in a second; null if there is none. A range from the smaller node holds in both directions. */
  at(from, to, second) {
    const own = this.#holding(`${from} ${to}`, second);
    const light = own ?? (from > to ? this.#holding(`${to} ${from}`, second) : undefined);
    return light?.light ?? null;
  }

  /** The range of a pair that holds in a second. */
  #holding(pair, second) {
    const ranges = this.#ranges.get(pair) ?? [];
    let [low, high] = [0, ranges.length];
    while (low < high) {
      const middle = (low + high) >> 1;
      [low, high] = ranges[middle].start <= second ? [middle + 1, high] : [low, middle];
    }
    return low && second < ranges[low - 1].end ? ranges[low - 1] : undefined;
  }
}

/** The contacts and ranges of a plan's canonical text. */
export function standingIn(canonical) {
  const rows = linesIn(canonical).map((line) => line.split(" "));
  const ranges = rows.filter(([kind]) => kind === "r").map(([, one, other, start, end, light]) => {
    return { one: BigInt(one), other: BigInt(other), start: Number(start), end: Number(end), light: Number(light) };
  });
  const lights = new Lights(ranges);
  const contacts = rows.filter(([kind]) => kind === "c").map(([, number, start, end, from, to, rate]) => {
    const link = { from: BigInt(from), to: BigInt(to) };
    const light = lights.at(link.from, link.to, Number(start));
    return { number: Number(number), start: Number(start), end: Number(end), ...link, rate: BigInt(rate), light };
  });
  return { contacts, ranges };
}

