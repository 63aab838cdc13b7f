// Routes: as the program's reports and explanations tell them, and which one is best without what is lost.

let request = null; // the question of the routes: its texts, and when the bundle is at the source
let routes = []; // those that are shown
let isFromFirst = false; // whether they begin the list of all

// ---- What the program prints ----

const ROUTE = /^(\d+ )?delivery /;

// The routes of a report, without hops. Ranks may be above what a number holds exactly, and stay texts.
function routesIn(report) {
  const lines = report.split("\n").filter((line) => ROUTE.test(line));
  return lines.map((line) => ({ ...routeOf(line), rank: /^\d+/.exec(line)?.[0] }));
}

// The explanations of a report: hops, each with the place of its contact, and then a route or a fault.
function explainedIn(report) {
  const placed = (hop) => ({ ...hop, contact: contactWith.get(hop.contact) });
  const explanations = answersIn(report, "list ").map(({ told }) => explanationOf(told));
  return explanations.map(({ hops, ...end }) => ({ hops: hops.map(placed), ...end }));
}

// A route with its hops, and what follows from these.
function withHops(route, hops, place, label = route.rank) {
  const passed = hops.map((hop) => links[linkOf[hop.contact]]);
  const nodes = [passed[0].from, ...passed.map((link) => link.to)];
  return { ...route, place, label, hops, nodes, uses: new Set(hops.map((hop) => hop.contact)), sendBy: lastStart(hops) };
}

// The last second at the source for the contacts of some hops: each has to be sent before its contact ends, and early enough
// for the next one.
function lastStart(hops) {
  return hops.reduceRight((latest, { contact, send, arrive }) => Math.min(ends[contact] - 1, latest - (arrive - send)), Infinity);
}

// A request's line as `many` takes it, from a second on.
const lineOf = (asked, at) => linesOf([{ ...asked, at }]).trimEnd();

// The hops of routes, as the program explains their contacts, each from a second on; or why it doesn't.
async function explained(told, asked, seconds = told.map(() => secondOf(asked.at))) {
  if (!told.length) return { status: 0, report: "", hops: [] };
  const lists = linesOf(told.map(({ contacts }, place) => ({ ...asked, contacts, at: seconds[place] })));
  const answer = await askOver(lossesBelow(), "follow", { lists });
  return { ...answer, hops: explainedIn(answer.report).map(({ hops }) => hops) };
}

// The routes of an answer to a question, with their hops, from a place on; or what refuses them.
async function routesOf(answer, asked, place, label) {
  if (answer.status !== 0) return answer;
  const told = routesIn(answer.report), found = await explained(told, asked);
  return { ...found, routes: told.map((route, at) => found.hops[at] && withHops(route, found.hops[at], place + at, label)) };
}

// ---- What is best ----

// Links stand in the order in which routes pass them: the first hops of all routes, then the second ones, and so on.
function rankLinks(routes) {
  for (const route of routes) {
    route.hops.forEach((hop, place) => {
      const link = links[linkOf[hop.contact]];
      link.rank = Math.min(link.rank, place / route.hops.length + route.place / 1e4);
    });
  }
}

const holds = (route) => !route.contacts.some((number) => isLost(contactWith.get(number)));

// The best route without all that is lost, as far as the routes that are shown tell it: where these begin the list of all,
// they come before all others. Undefined if they don't tell it.
const bestShown = () => (isFromFirst ? routes.find(holds) : undefined);

const isShownRoute = (route) => route.place < routes.length;
const roomOfHop = (hop) => roomFrom(hop.contact, hop.send);
const roomOfRoute = (route) => route.hops.map(roomOfHop).reduce((least, room) => (room < least ? room : least));
const pathOf = (route) => route.nodes.map(nameOf).join(" → ");
