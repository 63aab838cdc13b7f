// When a bundle is delivered at best, by the second at which it is at the source: the timetable below the picture.

const table = byId("starts");
const HIGH = 84; // of the timetable

// The stretch of a second, or else the next one; and the nearest second that is known.
const stretchFrom = (second) => Math.min(firstOf(starts, (it) => it.last >= second), starts.length - 1);

function knownSecond(second) {
  const place = stretchFrom(second), { first, last } = starts[place], before = starts[place - 1]?.last ?? first;
  if (first <= second) return Math.min(Math.round(second), last);
  return second - before < first - second ? before : first;
}

const isStarting = () => chosen.start !== null;
const startSecond = () => chosen.start ?? request.at;
const lastBest = { second: null, route: null };

// The best route from a known second on; null if there is none.
function routeAtStart(second) {
  if (lastBest.second !== second) Object.assign(lastBest, { second, route: routeFrom(starts[stretchFrom(second)], second) });
  return lastBest.route;
}

// The route of a stretch, with the times that it has from a second on: a hop waits for its contact, and is as long as ever.
function routeFrom({ route }, second) {
  if (!route) return null;
  let here = second;
  const hops = route.hops.map(({ contact, send, arrive }) => {
    const sent = Math.max(here, known.start[contact]);
    here = sent + arrive - send;
    return { contact, send: sent, arrive: here };
  });
  const told = (hops) => hops.map((hop) => [hop.contact, hop.send, hop.arrive]).join();
  return routes.find((it) => told(it.hops) === told(hops)) ?? { ...route, hops, delivery: here };
}

// Moves the line to the nearest second that is known. At the request's own second nothing is chosen. While the line is
// dragged, the list of routes stays as it is.
function startAt(second, isDragged = false) {
  if (!isStarting()) startOver();
  const found = knownSecond(second);
  chosen.start = found === request.at ? null : found;
  if (!isDragged) return change();
  byId("lost").replaceChildren(...(isStarting() ? aboutStart() : []));
  layOut();
  draw();
}

// ---- How it is drawn ----

const deliveryAt = ({ route, first, delivery, lastDelivery }, second) =>
  route ? Math.min(delivery + Math.max(second - first, 0), lastDelivery) : null;

function paintStarts() {
  if (byId("below").hidden) return;
  paper = brushOf(table, size.width, HIGH);
  fillBox(ink.back, 0, 0, size.width, HIGH);
  useFont(SMALL);
  ["best delivery,", "by the second", "at the source"].forEach((line, place) => writeBeside(line, 26 + 15 * place, ink.soft));
  if (starts) paintStretches();
  paper = screen;
}

function paintStretches() {
  paper.save();
  clipTo(size.left, 0, size.width - size.left, HIGH);
  const inView = starts.filter((it) => it.route && it.last >= view.first && it.first <= view.last);
  const yOf = heightsOfDeliveries(inView);
  inView.forEach((it, place) => paintStretch(it, inView[place - 1], yOf));
  paintLine(yOf);
  paper.restore();
}

// Where deliveries lie, of which the earliest and the latest in view are at the ends.
function heightsOfDeliveries(inView) {
  const low = inView[0]?.delivery ?? 0, high = inView.at(-1)?.lastDelivery ?? low;
  return (second) => HIGH - 8 - ((second - low) / (high - low || 1)) * (HIGH - 32);
}

// The line of a stretch, and what joins it with the one before.
function paintStretch(it, before, yOf) {
  const left = xOf(it.first), right = Math.max(xOf(it.last + 1), left + 1), y = yOf(it.delivery);
  if (before) {
    paper.strokeStyle = ink.grid;
    paper.lineWidth = 1;
    strokeLine([xOf(before.last + 1), yOf(before.lastDelivery)], [left, yOf(before.lastDelivery)], [left, y]);
  }
  paper.strokeStyle = it.hue === undefined ? ink.used : ink.routes[it.hue % HUES];
  paper.lineWidth = 2.5;
  strokeLine([left, y], [right, yOf(it.lastDelivery)]);
}

// The line that can be dragged, and the delivery from its second on.
function paintLine(yOf) {
  const second = startSecond(), x = Math.round(xOf(second)) + 0.5, delivery = deliveryAt(starts[stretchFrom(second)], second);
  const colour = isStarting() ? ink.accent : ink.soft;
  fillBox(colour, x - 0.5, 0, 1.5, HIGH);
  for (const y of [9, delivery === null ? 9 : yOf(delivery)]) {
    paper.beginPath();
    paper.arc(x, y, y === 9 ? 6 : 4, 0, 7);
    paper.fill();
  }
  const text = delivery === null ? "no route" : `delivery ${timeBeside(delivery, second)}`, isLeft = x + 160 > size.width;
  writeOver(text, isLeft ? x - 11 - paper.measureText(text).width : x + 11, 9, colour, ink.back);
}

// What is best for the second of the line.
function aboutStart() {
  const best = routeAtStart(chosen.start), head = element("b", {}, `Bundle at the source ${timeText(chosen.start)}`);
  if (!best) return [element("div", { class: "told" }, head), element("div", { class: "told big" }, "No route"), backButton()];
  const later = best.delivery - routes[0].delivery;
  const side = later < 0 ? "earlier" : "later", asked = timeBeside(request.at, chosen.start);
  const onclick = () => setRequest({ ...request.texts, at: programTime(chosen.start) });
  return [
    element("div", { class: "told" }, head),
    element("div", { class: "told big" }, `Delivery ${timeBeside(best.delivery, chosen.start)}`),
    element("div", { class: "told" }, later ? `${durationText(Math.abs(later))} ${side} than for ${asked}` : `as for ${asked}`),
    element("div", { class: "told soft" }, pathOf(best)),
    element("button", { class: "small", onclick }, "List the routes from then"),
    backButton(),
  ];
}

// ---- The mouse, fingers and keys ----

const secondUnder = (event) => secondAt(event.offsetX);

table.onpointerdown = (event) => {
  if (!starts) return;
  table.setPointerCapture(event.pointerId);
  startAt(secondUnder(event));
  table.onpointermove = (moved) => startAt(secondUnder(moved), true);
};

table.onpointerup = table.onpointercancel = () => {
  if (!table.onpointermove) return;
  table.onpointermove = null;
  change();
  bringIntoView();
};

// Arrows move the line by a hundredth of the view, and at least to the next known second; Page Up and Page Down move it to
// the next stretch and the one before, Home and End to the ends.
table.onkeydown = (event) => {
  if (!starts) return;
  const second = startSecond(), step = Math.max(Math.round((view.last - view.first) / 100), 1), place = stretchFrom(second);
  const { first, last } = starts[place], before = starts[place - 1], after = starts[place + 1]?.first ?? second;
  const seconds = {
    ArrowLeft: second - step < first ? Math.min(second - step, before?.last ?? first) : second - step,
    ArrowRight: second + step > last ? Math.max(second + step, after) : second + step,
    PageUp: after,
    PageDown: second > first ? first : before?.first ?? second,
    Home: starts[0].first,
    End: starts.at(-1).last,
  };
  if (!(event.key in seconds)) return;
  event.preventDefault();
  startAt(seconds[event.key]);
  if (isStarting()) bringIntoView();
  else revealSpan(request.at, request.at);
};

// What a screen reader is told of the line.
function tellStart() {
  const best = isStarting() ? routeAtStart(chosen.start) : routes[0];
  const delivery = best ? `delivery ${timeText(best.delivery)}` : "no route";
  const values = { min: starts[0].first, max: starts.at(-1).last, now: startSecond() };
  for (const [name, value] of Object.entries(values)) table.setAttribute(`aria-value${name}`, value);
  table.setAttribute("aria-valuetext", `${timeText(startSecond())}, ${delivery}`);
}
