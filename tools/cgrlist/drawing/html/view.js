// What is in view: the state, the rows of links, places on the canvas, and how the view moves.

const HUES = look.light[0].length; // the number of routes with a colour of their own
const AXIS = 46, BAR = 16, STRIP = BAR + 2, LANE = 12, PLAIN = 28, ABOVE = 5; // heights
const SIDE = 14; // the right margin
const SHORTEST = 10; // seconds of the shortest span in view

const scroller = byId("scroll");
const chart = byId("chart");
const size = { width: 0, height: 0, left: 120 }; // of the canvas, and the width of the rows' names
const view = { first: 0, last: 1, widest: 0 }; // the span in view
// The links of routes alone, all of them or those of a node, and those that the file's maker chose.
const shows = { links: "all", node: null, open: new Set(), chosen: null };
// What is chosen: a route, lost contacts and nodes, another second at the source, and the contact at the cursor.
const chosen = { route: null, lost: new Set(), gone: new Set(), start: null, contact: null };
const pointed = { what: null, route: null }; // what is below the mouse: on the canvas, and in the list

// ---- Which routes are drawn ----

const isLosing = () => chosen.lost.size + chosen.gone.size > 0;
const isAsking = () => isLosing() || isStarting(); // what is best then
const isBroken = (route) => (isLosing() && !holds(route)) || (isStarting() && isMissed(route));
const isMissed = (route) => isShownRoute(route) && route.sendBy !== null && route.sendBy < chosen.start;
const isGone = (link) => chosen.gone.has(link.from) || chosen.gone.has(link.to);
const isLost = (contact) => missing.has(contact) || chosen.lost.has(contact) || isGone(links[linkOf[contact]]);
const then = { of: null, best: null, told: "" }; // what is best without what is lost, or what is told where that isn't known

// The best route without what is lost, or from the chosen second on: null if there is none, undefined if it isn't known.
function bestThen() {
  if (!isLosing()) return isStarting() ? routeAtStart(chosen.start) : null;
  const of = JSON.stringify([turn, numbersOf(chosen.lost), ...chosen.gone]);
  if (of !== then.of) Object.assign(then, { of, best: bestShown(), told: "" });
  return then.best;
}

function allRoutes() {
  const best = bestThen();
  return best && !isShownRoute(best) ? [...routes, best] : routes;
}

// As many as there are colours, the one singled out, and the best one without the lost contact.
const drawnRoutes = () => allRoutes().filter((it) => it.place < HUES || it.place === chosen.route || it === bestThen());

// Whether a route stands back behind others.
function isFaint(route) {
  if (isBroken(route)) return true;
  if (isAsking()) return route !== bestThen();
  const place = chosen.route ?? pointed.route;
  return place !== null && route.place !== place;
}

// ---- Rows ----

const rows = { list: [], of: new Map(), lanes: new Map(), height: 0 };

// Lays out the rows: which links have one, how high they are, and the lanes of routes in them.
function layOut() {
  rows.lanes = lanesOfRoutes();
  let top = 0;
  rows.list = grouped(chosenLinks()).map((it, place) => {
    const row = { ...it, top, isBanded: place % 2 === 0, ...heightsOf(it) };
    top += row.height;
    return row;
  });
  rows.of = new Map(rows.list.filter(isOfLink).map((row) => [row.link, row]));
  rows.height = top;
  byId("room").style.height = `${Math.max(0, top + AXIS + 8 - size.height)}px`;
}

// Of each link, the lane of each route that uses it.
function lanesOfRoutes() {
  const lanes = new Map();
  for (const route of drawnRoutes()) {
    for (const hop of route.hops) {
      const link = linkOf[hop.contact];
      if (!lanes.has(link)) lanes.set(link, new Map());
      if (!lanes.get(link).has(route)) lanes.get(link).set(route, lanes.get(link).size);
    }
  }
  return lanes;
}

function chosenLinks() {
  const isShown = (link) => rows.lanes.has(link) || (shows.chosen ? shows.chosen.has(link) : shows.links === "all");
  const has = (link) => (shows.node === null ? isShown(link) : endsAt(links[link], shows.node));
  const found = links.map((_, link) => link).filter(has);
  return found.sort((a, b) => (links[a].rank === links[b].rank ? a - b : links[a].rank - links[b].rank));
}

const MANY = 60; // of more links, those of the routes alone are shown at first, and all of them in groups
const isOfLink = (row) => row.link !== undefined;

// Rows for links. If there are many, those that no route uses stand under a row for their sender, which opens and closes.
function grouped(chosen) {
  const rowsOf = (links) => links.map((link) => ({ link }));
  const bySender = new Map();
  for (const link of chosen.filter((it) => !rows.lanes.has(it))) {
    if (!bySender.has(links[link].from)) bySender.set(links[link].from, []);
    bySender.get(links[link].from).push(link);
  }
  if (shows.node !== null || chosen.length <= MANY || chosen.length < 2 * bySender.size) return rowsOf(chosen);
  const groups = [...bySender].sort(([one], [other]) => one - other);
  const rowsOfGroup = ([sender, its]) => [{ sender, its }, ...(shows.open.has(sender) ? rowsOf(its) : [])];
  return [...rowsOf(chosen.filter((it) => rows.lanes.has(it))), ...groups.flatMap(rowsOfGroup)];
}

// How high a row is, and how far from its top the lanes lie below the bars.
function heightsOf(row) {
  const lanes = rows.lanes.get(row.link)?.size ?? 0;
  const bars = (isOfLink(row) ? links[row.link].strips.length : 1) * STRIP + 8;
  return { bars, height: bars + (lanes ? lanes * LANE + 3 : PLAIN - BAR - 10) };
}

const firstRowAt = (y) => firstOf(rows.list, (row) => row.top + row.height > y);
const firstEndingAfter = (strip, second) => firstOf(strip, (contact) => ends[contact] > second);

// ---- Places ----

const plotWidth = () => Math.max(size.width - size.left - SIDE, 1);
const xOf = (second) => size.left + ((second - view.first) / (view.last - view.first)) * plotWidth();
const secondAt = (x) => view.first + ((x - size.left) / plotWidth()) * (view.last - view.first);
const topOfStrip = (row, strip) => row.top + ABOVE + strip * STRIP;
const rightOf = (contact, left) => Math.max(xOf(ends[contact]), left + 1.6); // nothing is drawn of no width

// Where a contact lies, from the first row's top; null if its link has no row.
function placeOf(contact) {
  const row = rows.of.get(linkOf[contact]);
  if (!row) return null;
  const strip = links[row.link].strips.findIndex((it) => it.includes(contact));
  const left = xOf(known.start[contact]);
  return { row, left, right: rightOf(contact, left), top: topOfStrip(row, strip) };
}

// ---- Moving ----

// Shows a span, not further out or in than makes sense.
function showSpan(first, last) {
  const most = Math.max(Math.max(latest - earliest, SHORTEST) * 1.06, view.widest);
  const wide = Math.min(Math.max(last - first, SHORTEST), most);
  const start = Math.min(earliest, request ? request.at : earliest);
  const middle = Math.min((first + last) / 2, latest + wide * 0.4);
  view.first = Math.max(middle - wide / 2, start - wide * 0.9);
  view.last = view.first + wide;
  draw();
}

let flight = 0;

// Moves to a span, smoothly if that is wanted.
function flyTo(first, last) {
  cancelAnimationFrame(flight);
  const from = { ...view }, began = performance.now();
  const isStill = matchMedia("(prefers-reduced-motion: reduce)").matches;
  const step = (now) => {
    const part = isStill ? 1 : Math.min(1, Math.max(0, (now - began) / 220));
    const eased = 1 - (1 - part) ** 3;
    showSpan(from.first + (first - from.first) * eased, from.last + (last - from.last) * eased);
    if (part < 1) flight = requestAnimationFrame(step);
  };
  step(began);
}

function zoom(factor, at = (view.first + view.last) / 2) {
  cancelAnimationFrame(flight);
  showSpan(at - (at - view.first) * factor, at + (view.last - at) * factor);
}

function pan(pixels) {
  cancelAnimationFrame(flight);
  const seconds = (pixels / plotWidth()) * (view.last - view.first);
  showSpan(view.first + seconds, view.last + seconds);
}

function spanOfPlan() {
  const room = (latest - earliest) * 0.02;
  return [earliest - room, latest + room];
}

function spanOfRoutes() {
  const drawn = drawnRoutes();
  if (!drawn.length) return spanOfPlan();
  const first = Math.min(...drawn.map((it) => it.hops[0].send), request ? request.at : Infinity);
  const last = Math.max(...drawn.map((it) => it.delivery));
  const room = Math.max((last - first) * 0.07, 1);
  return [first - room, last + room * 1.6];
}

const showRoutes = () => flyTo(...spanOfRoutes());
const showPlan = () => flyTo(...spanOfPlan());

// Brings a route into view: its rows and its time, when a contact is lost beside the routes before.
function revealRoute(route) {
  const its = route.hops.map((hop) => rows.of.get(linkOf[hop.contact])).filter(Boolean);
  if (its.length) revealRows(Math.min(...its.map((row) => row.top)), Math.max(...its.map((row) => row.top + row.height)));
  revealSpan(isStarting() ? chosen.start : route.hops[0].send, route.delivery);
}

function revealSpan(first, last) {
  if (view.first <= first && last <= view.last) return;
  const wide = Math.max(view.last - view.first, (last - first) * 1.2), middle = (first + last) / 2;
  if (isLosing()) showRoutes();
  else flyTo(middle - wide / 2, middle + wide / 2);
}

// Scrolls so that rows are in view, the upper ones if there is no room for all.
function revealRows(top, bottom) {
  const height = size.height - AXIS, { scrollTop } = scroller;
  if (bottom > scrollTop + height) scroller.scrollTop = Math.min(top, bottom - height);
  if (top < scroller.scrollTop) scroller.scrollTop = top;
}

// Brings a contact into view.
function reveal(contact) {
  if (!rows.of.has(linkOf[contact])) {
    [shows.links, shows.node] = ["all", null];
    shows.open.add(links[linkOf[contact]].from);
    change();
  }
  const { row } = placeOf(contact), height = size.height - AXIS, wide = view.last - view.first;
  if (row.top < scroller.scrollTop || row.top + row.height > scroller.scrollTop + height) {
    scroller.scrollTop = row.top - height / 3;
  }
  const start = known.start[contact];
  if (ends[contact] < view.first + wide * 0.03 || start > view.last - wide * 0.05) {
    const middle = (start + Math.min(ends[contact], start + wide / 2)) / 2;
    flyTo(middle - wide / 2, middle + wide / 2);
  }
}
