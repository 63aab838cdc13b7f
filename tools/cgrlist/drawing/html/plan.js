// The plan that is shown: its contacts in columns, and its links. Contacts, links and nodes are numbers here, their places
// in the columns. Times are seconds since 1970 in UTC; rates and the numbers of nodes are texts, since they may be above what
// a number holds exactly.

const byId = (id) => document.getElementById(id);
const jsonIn = (id) => JSON.parse(byId(id).textContent);
const file = document.documentElement.outerHTML; // before the script changes it
const data = jsonIn("data"); // the plan and the question with which the file opens
const look = jsonIn("look");

// The plan that is shown, with `name`, `text` and `digest`, and the last text that was refused, with `name`, `text` and `message`.
const app = { plan: null, refused: null };
const listeners = [];
const announce = (what) => listeners.forEach((listener) => listener(what));

let known; // the columns: `nodes`, and of each contact `number`, `start`, `length`, `rate` and `light`
let contactCount, ends, contactWith, linkOf, links, earliest, latest;
const names = new Map(Object.entries(data.names)); // of nodes
let missing = new Set(); // contacts that are lost for all answers

const byNumber = (one, other) => one.length - other.length || (one < other ? -1 : Number(one > other));

// ---- The canonical text ----

// The contacts of a plan's canonical text, by link and by start, each with the light time for its start.
function contactsIn(canonical) {
  const asTexts = ({ from, to, rate, ...others }) => ({ ...others, from: `${from}`, to: `${to}`, rate: `${rate}` });
  const byLink = (one, other) => byNumber(one.from, other.from) || byNumber(one.to, other.to) || one.start - other.start;
  return standingIn(canonical).contacts.map(asTexts).sort(byLink);
}

// The place of the first of some things, in order, for which something holds; it holds for all after that.
function firstOf(things, holds) {
  let low = 0, high = things.length;
  while (low < high) {
    const middle = (low + high) >> 1;
    if (holds(things[middle])) high = middle;
    else low = middle + 1;
  }
  return low;
}

// ---- Columns and links ----

// Takes the contacts of another plan.
function usePlan(contacts) {
  const column = (name) => contacts.map((it) => it[name]);
  const nodes = [...new Set(contacts.flatMap(({ from, to }) => [from, to]))].sort(byNumber);
  known = { nodes, number: column("number"), start: column("start"), rate: column("rate"), light: column("light") };
  known.length = contacts.map(({ start, end }) => end - start);
  contactCount = contacts.length;
  ends = Float64Array.from(contacts, ({ end }) => end);
  contactWith = new Map(known.number.map((number, contact) => [number, contact]));
  earliest = known.start.reduce((least, start) => Math.min(least, start), contactCount ? Infinity : 0);
  latest = ends.reduce((most, end) => Math.max(most, end), contactCount ? -Infinity : DAY);
  missing = new Set();
  readLinks(contacts);
}

// Each link has strips: contacts that don't overlap, by start.
function readLinks(contacts) {
  const places = new Map(known.nodes.map((node, place) => [node, place]));
  linkOf = new Int32Array(contactCount);
  links = [];
  contacts.forEach(({ from, to }, contact) => {
    const [sender, receiver] = [from, to].map((node) => places.get(node));
    if (links.at(-1)?.from !== sender || links.at(-1)?.to !== receiver) {
      links.push({ from: sender, to: receiver, strips: [], rank: Infinity });
    }
    addToStrips(links.at(-1).strips, contact);
    linkOf[contact] = links.length - 1;
  });
}

function addToStrips(strips, contact) {
  const free = strips.find((strip) => ends[strip.at(-1)] <= known.start[contact]);
  if (free) free.push(contact);
  else strips.push([contact]);
}

const titleOf = (node) => node + (names.has(node) ? ` ${names.get(node)}` : "");
const nameOf = (node) => names.get(known.nodes[node]) ?? known.nodes[node];
const fullName = (node) => titleOf(known.nodes[node]);
const linkName = (link) => `${nameOf(links[link].from)} → ${nameOf(links[link].to)}`;
const contactsOfNode = (node) => known.number.map((_, contact) => contact).filter((it) => endsAt(links[linkOf[it]], node));
const endsAt = ({ from, to }, node) => from === node || to === node;

// The bytes that a contact can send from a second on, as text: they may be above what a number holds exactly.
const roomFrom = (contact, second) => BigInt(known.rate[contact]) * BigInt(ends[contact] - second);
