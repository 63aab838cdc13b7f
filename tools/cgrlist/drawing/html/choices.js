// Contacts that a router chose, and what becomes of them: their rank, how much later they deliver than the best, or their
// fault. Texts of choices are those of tools/report.

const LOOKS = [100, 10000]; // routes that are looked at for ranks: of each of several requests as many as the first says
const LISTS_OF_RUN = 200, REQUESTS_OF_RUN = 50; // that one run answers
const NONE = "-"; // a router's choice of no route
const HAS_ROUTE = "HasRoute"; // what is wrong with that if there is a route

// ---- A text of choices ------------------------------------------------------------------------------------------

// The choices of a text, a line each: contacts, or `-` for no route, and then a request, or else that of the page; or JSON.
// Each is `{ place, contacts, asked }`, where `asked` is the request's line, or `{ place, fault }`. A router may count
// contacts from 0.
function choicesOf(text, first = 1) {
  const lines = text.split(/\r\n?|\n/).map((line, place) => ({ place: place + 1, line: line.trim() }));
  const told = lines.filter(({ line }) => line && !line.startsWith("#")), numberOf = numbering(first);
  return told.map(({ place, line }) => ({ place, ...(/^[[{]/.test(line) ? choiceOfJson : choiceOf)(line, numberOf) }));
}

// Contacts alone, or contacts before a request, which may begin at any word, since names may have blanks.
function choiceOf(line, numberOf) {
  const alone = contactsOfText(line, numberOf), words = line.split(/\s+/);
  if (!alone.fault) return withRequest(alone);
  for (let at = 1; at < words.length - 2; at++) {
    const asked = requestOfWords(words.slice(at));
    if (asked) return { ...contactsOfText(words.slice(0, at).join(" "), numberOf), asked };
  }
  return words.some(isTime) ? { fault: NO_REQUEST } : alone;
}

const NO_REQUEST = "it needs from, to and time after its contacts";
const withRequest = (choice) => (request ? { ...choice, asked: lineOf(request.texts, request.at) } : { fault: NO_REQUEST });

// A list of contacts, or an object that has one and a request's fields, also in `request`; no contacts are null or [].
function choiceOfJson(line, numberOf) {
  const value = valueOfJson(line), told = Array.isArray(value) ? { contacts: value } : value;
  if (!told) return { fault: "it is no JSON" };
  const { contacts, request: own, ...fields } = told;
  if (contacts === undefined) return { fault: "it has no contacts" };
  if (contacts && !Array.isArray(contacts)) return { fault: "its contacts are no list of numbers or texts" };
  const choice = contacts?.length ? contactsOfWords(contacts.map(String), numberOf) : { contacts: [] }, asked = own ?? fields;
  if (choice.fault || asked.from === undefined) return choice.fault ? choice : withRequest(choice);
  const [from, to] = [asked.from, asked.to].map((node) => nodeOfText(String(node))), at = secondOfWord(String(asked.at));
  if (!from || !to || at === undefined) return { fault: NO_REQUEST };
  const avoid = avoidedOf([asked.avoid ?? []].flat().join(","));
  return { ...choice, asked: lineOf({ from, to, marginPpm: asked.margin_ppm, maxHops: asked.max_hops, avoid }, at) };
}

function valueOfJson(text) {
  try {
    return JSON.parse(text);
  } catch {
    return undefined;
  }
}

// Contacts as `4,11,2`, `4 11 2`, `31>22@2030-01-01T01:00:00Z,..` or `-`, or what is wrong with them.
function contactsOfText(text, numberOf) {
  if (text === NONE) return { contacts: [] };
  return contactsOfWords(text.includes(">") ? text.split(",") : text.split(/[,\s]+/), numberOf);
}

function contactsOfWords(words, numberOf) {
  const contacts = words.map((it) => numberOf(it.trim()));
  const wrong = words[contacts.indexOf(undefined)];
  return wrong === undefined ? { contacts } : { fault: `the plan has no such contact, or it is no number: ${wrong}` };
}

// A function for the number of the contact that a word says, by its number for the router, whose first contact has a number,
// or by nodes and start. It gives undefined for other words.
function numbering(first) {
  const key = (from, to, start) => `${from}>${to}@${start}`, windows = new Map();
  known.number.forEach((number, contact) => {
    const { from, to } = links[linkOf[contact]];
    windows.set(key(known.nodes[from], known.nodes[to], known.start[contact]), number);
  });
  return (word) => {
    if (/^(0|[1-9]\d{0,8})$/.test(word)) return Number(word) + 1 - first || undefined;
    const [, from, to, start] = /^(.+)>(.+)@(.+)$/.exec(word) ?? [];
    return start && windows.get(key(nodeOfText(from.trim()), nodeOfText(to.trim()), secondOfText(start)));
  };
}

// A node by its number or its name.
function nodeOfText(text) {
  return /^[1-9]\d{0,19}$/.test(text) ? text : [...names].find(([, name]) => name === text)?.[0];
}

// A time, or seconds since 1970.
const secondOfWord = (word) => (/^[1-9]\d{8,11}$/.test(word) ? Number(word) : secondOfText(word));
const isTime = (word) => secondOfWord(word) !== undefined;
const avoidedOf = (text) => text.split(",").map((it) => nodeOfText(it.trim()) ?? it).sort(byNumber).join(",");

// The line for what words ask, `from to time` and then a margin, a limit of hops and nodes to avoid; undefined if they are
// something else. The nodes' names may have blanks.
function requestOfWords(words) {
  const time = words.findIndex((word, place) => place > 1 && isTime(word));
  const [marginPpm, maxHops, ...further] = words.slice(time + 1);
  if (time < 0 || [marginPpm, maxHops].some((word) => word && !/^\d+$/.test(word))) return undefined;
  const avoid = avoidedOf(further.join(" "));
  for (let cut = 1; cut < time; cut++) {
    const [from, to] = [words.slice(0, cut), words.slice(cut, time)].map((it) => nodeOfText(it.join(" ")));
    if (from && to) return lineOf({ from, to, marginPpm, maxHops, avoid }, secondOfWord(words[time]));
  }
}

// ---- Judging ----------------------------------------------------------------------------------------------------

// What choices do: each with `hops`, and `delivery`, `rank` and `later`, the seconds after the best delivery, or `fault`; with
// neither, there is rightly no route. `tell` is told how much is done. What can't be answered is thrown.
async function judged(ask, choices, tell) {
  const told = new Map(), read = choices.filter((it) => it.contacts);
  for (const [at, part] of cutIn(read, LISTS_OF_RUN).entries()) {
    tell(`${at * LISTS_OF_RUN} of ${count(read.length, "choice")} followed`);
    for (const [choice, it] of await followed(ask, part)) told.set(choice, it);
  }
  const lists = await listingsOf(ask, read.filter((it) => !told.get(it).fault), tell);
  return choices.map((it) => ({ hops: [], ...it, ...told.get(it), ...rankOf(it, lists, told.get(it)) }));
}

const partAt = (all, at, size) => all.slice(at * size, (at + 1) * size);
const cutIn = (all, size) => Array.from({ length: Math.ceil(all.length / size) }, (_, at) => partAt(all, at, size));

// Some choices, each with what it does. One whose line is refused is left out, and the others are asked for again.
async function followed(ask, choices) {
  const left = [...choices], refused = [];
  while (left.length) {
    const lists = left.map((it) => `${it.contacts.join(",") || 1} ${it.asked}\n`).join(""); // any, to judge the request
    const { status, report, message } = await ask("follow", { lists });
    const [, line, fault] = /lists line (\d+): (\w+)/.exec(message) ?? [];
    if (status === 0) return [...refused, ...explainedIn(report).map((it, at) => [left[at], left[at].contacts.length ? endOf(it) : {}])];
    if (!line) throw new Error(message);
    refused.push([left.splice(line - 1, 1)[0], { fault }]);
  }
  return refused;
}

// What an explanation ends with: a delivery, or a fault in words.
function endOf({ hops, route, fault }) {
  return route ? { hops, delivery: route.delivery } : { hops, fault: fault.hop ? `hop ${fault.hop}: ${fault.reason}` : fault.reason };
}

// Of the request of each of some choices, which are routes, its first routes: the best delivery, ranks by contacts, and how many
// were looked at. For one request alone more are looked at, if that is needed.
async function listingsOf(ask, choices, tell) {
  const asked = [...new Set(choices.map((it) => it.asked))], lists = new Map();
  for (const look of asked.length > 1 ? LOOKS.slice(0, 1) : LOOKS) {
    const isRanked = (it) => !it.contacts.length || lists.get(it.asked).ranks.has(it.contacts.join());
    const isMissing = choices.some((it) => !lists.has(it.asked) || !isRanked(it));
    for (const [at, part] of cutIn(isMissing ? asked : [], REQUESTS_OF_RUN).entries()) {
      tell(`${at * REQUESTS_OF_RUN} of ${count(asked.length, "request")} answered`);
      const { status, report, message } = await ask("many", { requests: `${part.join("\n")}\n`, count: String(look) });
      if (status !== 0) throw new Error(message);
      answersIn(report, "request ").forEach(({ told }, place) => lists.set(part[place], listingIn(told, look)));
    }
  }
  return lists;
}

function listingIn(lines, look) {
  const found = routesIn(lines.join("\n"));
  return { best: found[0]?.delivery, ranks: new Map(found.map((it) => [it.contacts.join(), it.rank])), look };
}

// The rank of a choice, and how many seconds it delivers after the best one, if it is a route.
function rankOf({ asked, contacts }, lists, told) {
  if (!told || told.fault) return {};
  const { best, ranks, look } = lists.get(asked);
  if (!contacts.length) return best === undefined ? {} : { fault: HAS_ROUTE };
  return { rank: ranks.get(contacts.join()) ?? `>${look}`, later: told.delivery - best };
}

// Whether a choice isn't a route, or delivers more than so many seconds after the best.
const isWrong = (it, most) => Boolean(it.fault) || it.later > most;

// The sum of judged choices.
function sumOf(told, most) {
  const late = told.filter((it) => it.later > most).length, missed = told.filter((it) => it.fault === HAS_ROUTE).length;
  const none = told.filter((it) => it.fault).length - missed, misses = missed ? `${missed} missed a route, ` : "";
  const are = none === 1 ? "isn't a route" : "aren't routes", limit = most ? `more than ${durationText(most)} after` : "after";
  const deliver = late === 1 ? "delivers" : "deliver";
  return `Of ${count(told.length, "choice")}, ${none} ${are}, ${misses}and ${late} ${deliver} ${limit} the best`;
}
