// The timetable of a question: the best route by the second at which the bundle is at the source, as the program tells it.

const STARTS = 1024; // seconds that are asked for, at most
const AT_ONCE = 256; // of them
let starts = null; // its stretches of time with one best route each, in their order; null if they aren't known

// Asks for the timetable of the routes that are shown.
async function askTimetable() {
  const of = request;
  if (!of || !routes.length) return useTimetable(null);
  const texts = { ...of.texts, count: "" }, kept = keptAnswer("timetable", lossesBelow(), texts);
  if (!kept) useTimetable(null);
  const answer = kept ?? (await timetableOf(of));
  if (of !== request || !answer) return;
  if (!kept) keepAnswer("timetable", lossesBelow(), texts, answer);
  useTimetable(answer);
}

// Shows a timetable, or that there is none yet.
function useTimetable(answer) {
  starts = answer && stretchesIn(answer);
  byId("below").hidden = !starts && (!request || !routes.length || isLacking());
  if (starts) recallStart();
  draw();
}

// The stretches of an answer. Of a second between two of them the page doesn't know the best route.
function stretchesIn({ rows, report }) {
  const all = explainedIn(report).map(({ hops, route }) => withHops(route, hops, routes.length, "★"));
  const hues = all.map((it) => likeRoute(it)?.place);
  return rows.map(([first, last, place, delivery, lastDelivery]) => {
    return { first, last, route: all[place] ?? null, delivery, lastDelivery, hue: hues[place] };
  });
}

// The shown route over the same contacts, whose colour a route of the timetable has.
const likeRoute = (route) => routes.find((it) => it.contacts.join() === route.contacts.join());

// ---- Asking ----

// The timetable of a question, with each of its routes once, from the first second of a stretch on; null if nothing tells it.
async function timetableOf({ texts, at }) {
  const found = await bestBySecond([Math.min(at, earliest), at, latest], (seconds) => bestAt(texts, seconds));
  if (!found) return null;
  const stretches = joined(found, latest), firsts = new Map();
  for (const it of stretches) if (it.route && !firsts.has(keyOfRoute(it.route))) firsts.set(keyOfRoute(it.route), it);
  const first = [...firsts.values()], told = await explained(first.map((it) => it.route), texts, first.map((it) => it.first));
  if (told.status !== 0) return null;
  const places = new Map([...firsts.keys()].map((key, place) => [key, place]));
  const rows = stretches.map(({ first, last, route, delivery, lastDelivery }) =>
    [first, last, ...(route ? [places.get(keyOfRoute(route)), delivery, lastDelivery] : [])]);
  return { rows, report: told.report };
}

const keyOfRoute = (route) => route.contacts.join();

// The best route, or null, at each of some seconds; undefined if nothing tells it.
async function bestAt(texts, seconds) {
  const requests = linesOf(seconds.map((at) => ({ ...texts, at })));
  const answer = await askOver(lossesBelow(), "many", { requests, count: "1" });
  if (answer.status !== 0) return undefined;
  return answersIn(answer.report, "request ").map(({ told }) => routesIn(told[0])[0] ?? null);
}

// The best routes at seconds of a span, by second: at some that are equally far from each other, and then in the middle of the
// widest gaps that aren't known.
async function bestBySecond([first, at, last], bestOf) {
  const found = new Map();
  let asked = [...new Set([first, at, last, ...between(first, last, AT_ONCE)])].sort((one, other) => one - other);
  while (asked.length) {
    const best = await bestOf(asked);
    if (!best) return null;
    asked.forEach((second, place) => found.set(second, best[place]));
    const gaps = unknownGaps(found).sort((one, other) => other[1] - other[0] - (one[1] - one[0]));
    const most = Math.max(0, Math.min(AT_ONCE, STARTS - found.size));
    asked = gaps.slice(0, most).map(([one, other]) => Math.floor((one + other) / 2));
  }
  return inOrder(found);
}

// Up to so many seconds between two, as far from each other as can be.
function between(first, last, most) {
  const count = Math.max(0, Math.min(most, last - first - 1));
  return Array.from({ length: count }, (_, place) => first + Math.floor(((last - first) * (place + 1)) / (count + 1)));
}

const inOrder = (found) => [...found].sort(([one], [other]) => one - other);

// The gaps in which nothing is known. A bundle that is at the source later arrives no earlier, over the same contacts, too. So
// between two seconds with the same best route and delivery all have these, and after one without a route none has one.
function unknownGaps(found) {
  const known = inOrder(found), pairs = known.slice(1).map((it, place) => [known[place], it]);
  return pairs.filter(([[one, route], [other, next]]) => other - one > 1 && !isAlike(route, next)).map((pair) => pair.map(([it]) => it));
}

const isAlike = (one, other) =>
  one === null || (other !== null && one.delivery === other.delivery && keyOfRoute(one) === keyOfRoute(other));

// ---- Stretches ----

// The stretches of seconds with their best routes, to a last second. In one that rises, a bundle that is at the source a second
// later is delivered a second later.
function joined(found, last) {
  const stretches = [];
  for (const [second, route] of found) {
    const before = stretches.at(-1), following = before && withSecond(before, second, route);
    if (following) stretches[stretches.length - 1] = following;
    else stretches.push(stretchAt(second, route));
    if (!route) break; // and none later
  }
  return stretches.map((it) => (it.route ? it : { ...it, last }));
}

const stretchAt = (second, route) =>
  ({ first: second, last: second, route, delivery: route?.delivery, lastDelivery: route?.delivery });

// A stretch with a further second; undefined if another one begins there.
function withSecond(stretch, second, route) {
  if (!route || !stretch.route || keyOfRoute(stretch.route) !== keyOfRoute(route)) return undefined;
  const { first, last, delivery, lastDelivery } = stretch, isFlat = lastDelivery === delivery;
  if (isFlat && route.delivery === delivery) return { ...stretch, last: second };
  const canRise = first === last || !isFlat;
  return canRise && second === last + 1 ? { ...stretch, last: second, lastDelivery: route.delivery } : undefined;
}
