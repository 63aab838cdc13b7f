// What a mouse, fingers and keys do.

// ---- What can be chosen ----

// Shows what was chosen.
function change() {
  if (shows.node === null && document.activeElement === byId("one")) byId(shows.links).focus(); // it goes away
  for (const [name, isPressed] of Object.entries(pressedButtons())) byId(name).setAttribute("aria-pressed", isPressed);
  byId("one").hidden = byId("none").hidden = shows.node === null;
  byId("crossed").hidden = !isLosing() && !missing.size;
  if (shows.node !== null) tellNode();
  tellMissing();
  layOut();
  if (isLosing() && bestThen() === undefined && !then.told) askThen();
  listRoutes();
  if (starts) tellStart();
  draw();
  remember();
}

// The buttons of the node whose links are shown.
function tellNode() {
  byId("one").textContent = `${fullName(shows.node)} ✕`;
  byId("none").disabled = !request;
  byId("none").setAttribute("aria-pressed", chosen.gone.has(shows.node));
}

// What is lost for all answers, which a button takes back.
function tellMissing() {
  byId("without").hidden = !missing.size;
  byId("without").textContent = `without ${count(missing.size, "contact")} ✕`;
}

function pressedButtons() {
  const isAny = shows.node === null;
  const isOf = (which) => isAny && !shows.chosen && shows.links === which;
  return { some: isOf("some"), all: isOf("all"), one: !isAny };
}

function glance(place) {
  pointed.route = place;
  draw();
}

// Singles a route out, or shows all again.
function single(place) {
  chosen.route = chosen.route === place ? null : place;
  loseNothing();
  change();
  bringIntoView();
}

function loseNothing() {
  chosen.start = null;
  chosen.lost.clear();
  chosen.gone.clear();
}

// Loses a contact or a node, besides those that are lost, or takes that back.
const lose = (contact) => turnLost(chosen.lost, contact);
const loseNode = (node) => turnLost(chosen.gone, node);

function turnLost(lost, it) {
  if (!lost.delete(it)) lost.add(it);
  chosen.start = null;
  if (isLosing()) chosen.route = null;
  hideTip();
  change();
  bringIntoView();
  announce("lost");
}

// Brings what was chosen into view: the answer or the card beside the picture, and the route in it.
function bringIntoView() {
  const part = isAsking() ? byId("lost") : document.querySelector("#routes .on");
  const route = isAsking() ? bestThen() : routes[chosen.route];
  part?.scrollIntoView({ block: "nearest" });
  if (route) revealRoute(route);
  else if (isStarting()) revealSpan(chosen.start, chosen.start);
}

function showLinks(which, node = null) {
  [shows.links, shows.node] = [which, node];
  if (node === null) Object.assign(shows, { chosen: null, isByHand: true });
  scroller.scrollTop = 0;
  change();
}

// ---- What lies where ----

// The group whose row is at a height of the canvas; undefined if there is none.
function groupAt(y) {
  const row = y < AXIS ? undefined : rows.list[firstRowAt(y - AXIS + scroller.scrollTop)];
  return row && !isOfLink(row) ? row.sender : undefined;
}

function turnGroup(sender) {
  if (!shows.open.delete(sender)) shows.open.add(sender);
  change();
}

// What lies at a place of the canvas: a contact, a piece of a route, or null.
function whatIsAt(x, y) {
  if (y < AXIS || x < size.left) return null;
  return contactAt(x, y - AXIS + scroller.scrollTop) ?? routeAt(x, y);
}

function contactAt(x, y) {
  const row = rows.list[firstRowAt(y)];
  if (!row || !isOfLink(row) || y < row.top + 3) return null;
  const strip = links[row.link].strips[Math.floor((y - row.top - 3) / STRIP)];
  if (!strip) return null;
  for (const slack of [0, 4]) {
    const contact = strip[firstEndingAfter(strip, secondAt(x - slack))];
    if (contact !== undefined && xOf(known.start[contact]) <= x + slack) return { contact };
  }
  return null;
}

function routeAt(x, y) {
  let nearest = null, least = 6;
  for (const piece of traced) {
    const away = Math.hypot(Math.max(piece.left - x, 0, x - piece.right), Math.max(piece.low - y, 0, y - piece.high));
    const distance = away + (isFaint(piece.route) ? 2 : 0);
    if (distance < least) [nearest, least] = [piece, distance];
  }
  return nearest;
}

// ---- The mouse and fingers ----

const fingers = new Map(); // where each is
let moved = 0; // how far since the first one came

chart.onpointerdown = (event) => {
  fingers.set(event.pointerId, [event.offsetX, event.offsetY]);
  moved = 0;
  chart.setPointerCapture(event.pointerId);
};

chart.onpointermove = (event) => {
  if (fingers.has(event.pointerId)) moveFinger(event);
  else point(event);
};

// The mouse moves without a button.
function point(event) {
  const what = (pointed.what = whatIsAt(event.offsetX, event.offsetY));
  const canAct = what ? what.contact === undefined || canBeLost(what.contact) : groupAt(event.offsetY);
  chart.classList.toggle("hand", Boolean(canAct));
  showTip(what, event.clientX, event.clientY);
  draw();
}

function moveFinger(event) {
  const before = fingers.get(event.pointerId), now = [event.offsetX, event.offsetY];
  moved += Math.abs(now[0] - before[0]) + Math.abs(now[1] - before[1]);
  if (fingers.size === 2) pinch(event.pointerId, before, now);
  else if (moved > 3) drag(event, before, now);
  else return;
  fingers.set(event.pointerId, now);
}

function pinch(moving, before, now) {
  const [[, other]] = [...fingers].filter(([finger]) => finger !== moving);
  const apart = (place) => Math.max(Math.abs(place[0] - other[0]), 12);
  zoom(apart(before) / apart(now), secondAt((now[0] + other[0]) / 2));
  pan((before[0] - now[0]) / 2);
}

function drag(event, before, now) {
  chart.classList.add("drag");
  hideTip();
  if (before[0] >= size.left || now[0] >= size.left) pan(before[0] - now[0]);
  if (event.pointerType === "mouse") scroller.scrollTop += before[1] - now[1]; // fingers scroll by themselves
}

chart.onpointerup = (event) => {
  if (moved <= 3 && fingers.size === 1) click(event);
  letGo(event);
};

chart.onpointercancel = letGo;

function letGo(event) {
  fingers.delete(event.pointerId);
  chart.classList.remove("drag");
}

// A finger's first tap tells what is there, and a second one does what a click does.
function click(event) {
  const isTouch = event.pointerType === "touch", what = whatIsAt(event.offsetX, event.offsetY);
  const isTold = !isTouch || (what && what.contact === chosen.contact);
  showTip(what, event.clientX, event.clientY, isTouch ? "Tap again" : "Click");
  chosen.contact = what?.contact ?? null;
  if (!what) {
    const group = groupAt(event.offsetY);
    if (group !== undefined) turnGroup(group);
    else if (chosen.route !== null) single(chosen.route);
  } else if (what.contact === undefined) {
    if (isShownRoute(what.route)) single(what.route.place);
  } else if (canBeLost(what.contact) && isTold) lose(what.contact);
  draw();
}

chart.onpointerleave = (event) => {
  if (event.pointerType === "touch") return;
  pointed.what = null;
  hideTip();
  draw();
};

chart.addEventListener("wheel", turnWheel, { passive: false });

// The wheel zooms; over the names the rows scroll.
function turnWheel(event) {
  if (event.offsetX < size.left && !event.ctrlKey) return;
  event.preventDefault();
  hideTip();
  const lines = event.deltaMode ? 30 : 1;
  const isSideways = event.shiftKey || Math.abs(event.deltaX) > Math.abs(event.deltaY);
  if (isSideways) pan((event.deltaX || event.deltaY) * lines);
  else {
    const turned = Math.max(-120, Math.min(120, event.deltaY * lines));
    zoom(Math.exp(turned * (event.ctrlKey ? 0.01 : 0.0022)), secondAt(event.offsetX));
  }
}

scroller.onscroll = draw;

function goOnMap(event) {
  const middle = earliest + ((event.offsetX - size.left) / plotWidth()) * (latest - earliest);
  const half = (view.last - view.first) / 2;
  showSpan(middle - half, middle + half);
}

map.onpointerdown = (event) => {
  map.setPointerCapture(event.pointerId);
  goOnMap(event);
  map.onpointermove = goOnMap;
};

map.onpointerup = map.onpointercancel = () => {
  map.onpointermove = null;
};

// ---- Keys ----

const ZOOM = 1.4;
const scrollBy = (pixels) => (scroller.scrollTop += pixels);
const KEYS = {
  "+": () => zoomAtCursor(1 / ZOOM),
  "=": () => zoomAtCursor(1 / ZOOM),
  "-": () => zoomAtCursor(ZOOM),
  0: showRoutes,
  9: showPlan,
  Home: showRoutes,
  End: showPlan,
  ArrowLeft: ({ shiftKey }) => (shiftKey ? pan(-plotWidth() / 8) : goAlong(-1)),
  ArrowRight: ({ shiftKey }) => (shiftKey ? pan(plotWidth() / 8) : goAlong(1)),
  ArrowUp: ({ shiftKey }) => (shiftKey ? scrollBy(-80) : goAcross(-1)),
  ArrowDown: ({ shiftKey }) => (shiftKey ? scrollBy(80) : goAcross(1)),
  PageUp: () => scrollBy(AXIS - size.height),
  PageDown: () => scrollBy(size.height - AXIS),
  Backspace: closeAtCursor,
  Enter: loseAtCursor,
  " ": loseAtCursor,
};

chart.onkeydown = (event) => {
  if (event.ctrlKey || event.metaKey || event.altKey || !KEYS[event.key]) return;
  event.preventDefault();
  hideTip();
  KEYS[event.key](event);
};

chart.onblur = hideTip;

document.onkeydown = (event) => {
  if (byId("help").open || event.ctrlKey || event.metaKey || event.altKey) return;
  const isTyping = event.target.matches("input, textarea, select");
  if (event.key === "/" && !isTyping) {
    event.preventDefault();
    byId("find").focus();
  }
  if (event.key === "?" && !isTyping) byId("help").showModal();
  if (event.key === "Escape" && !isTyping) startOver();
};

// Takes back all that was chosen.
function startOver() {
  hideTip();
  closeFound();
  if (isStarting() && routes.length) revealSpan(routes[0].hops[0].send, routes[0].delivery);
  Object.assign(chosen, { route: null, contact: null });
  loseNothing();
  shows.node = null;
  change();
}

// The cursor's contact stays where it is, if it is in view, and its tip with it.
function zoomAtCursor(factor) {
  const start = known.start[chosen.contact], isInView = view.first <= start && start <= view.last;
  zoom(factor, isInView ? start : undefined);
  if (isInView) tipAtCursor(chosen.contact);
}

function loseAtCursor() {
  if (chosen.contact === null || !canBeLost(chosen.contact)) return;
  lose(chosen.contact);
  byId("said").textContent = [...byId("lost").querySelectorAll(".told")].map((it) => it.textContent).join(". ");
}

function contactsOf(link) {
  const byStart = (one, other) => known.start[one] - known.start[other] || one - other;
  return links[link].strips.flat().sort(byStart);
}

// Without a cursor, the first one is on the first contact of the best route, or of the first row.
function firstCursor() {
  if (routes.length) return goTo(routes[0].hops[0].contact);
  const link = linkOfRow(0, 1);
  if (link !== undefined) goTo(contactsOf(link)[0]);
}

// The link of the row at a place, or of the next one in a direction that has one; a group is opened.
function linkOfRow(place, step) {
  const row = rows.list[place];
  if (!row || isOfLink(row)) return row?.link;
  if (shows.open.has(row.sender)) return linkOfRow(place + step, step);
  turnGroup(row.sender);
  return row.its.at(step > 0 ? 0 : -1);
}

const isClosedOver = (row, link) => !isOfLink(row) && row.its.includes(link) && !shows.open.has(row.sender);

// Closes the group of the cursor's link.
function closeAtCursor() {
  const group = rows.list.find((row) => !isOfLink(row) && row.its.includes(linkOf[chosen.contact]));
  if (!group || !shows.open.has(group.sender)) return;
  turnGroup(group.sender);
  revealRows(group.top, group.top + group.height);
}

// To the contact before or after in its row.
function goAlong(step) {
  if (chosen.contact === null) return firstCursor();
  const all = contactsOf(linkOf[chosen.contact]), next = all[all.indexOf(chosen.contact) + step];
  if (next !== undefined) goTo(next);
}

// To the contact of the row above or below that starts nearest.
function goAcross(step) {
  if (chosen.contact === null) return firstCursor();
  const at = linkOf[chosen.contact], place = rows.list.findIndex((row) => row.link === at || isClosedOver(row, at));
  if (place < 0) return firstCursor();
  const link = linkOfRow(place + step, step);
  if (link === undefined) return;
  const away = (contact) => Math.abs(known.start[contact] - known.start[chosen.contact]);
  goTo(contactsOf(link).reduce((best, other) => (away(other) < away(best) ? other : best)));
}

// Puts the cursor on a contact, shows it, and says what it is.
function goTo(contact) {
  chosen.contact = contact;
  reveal(contact);
  draw();
  const lost = canBeLost(contact) ? ". Enter: what if it is lost" : "";
  const told = aboutContact(contact).map((pair) => pair.join(" ")).join(", ");
  byId("said").textContent = `${headOfContact(contact)}: ${told}${lost}`;
  setTimeout(() => tipAtCursor(contact), 240); // the picture is there by then
}

function tipAtCursor(contact) {
  const place = placeOf(contact), canvas = chart.getBoundingClientRect();
  if (chosen.contact !== contact || !place || document.activeElement !== chart) return;
  const x = Math.min(Math.max(place.left, size.left), size.width - 40);
  showTip({ contact }, canvas.left + x, canvas.top + AXIS + place.top - scroller.scrollTop + BAR, "Enter");
}
