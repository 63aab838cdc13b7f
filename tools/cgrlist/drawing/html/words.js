// The words beside the picture: what a contact or a route is, the list of routes, and what a lost contact means.

// Makes an element with attributes, handlers and parts.
function element(tag, about = {}, ...parts) {
  const made = document.createElement(tag);
  for (const [key, value] of Object.entries(about)) {
    if (key.startsWith("on") || key === "hidden") made[key] = value;
    else made.setAttribute(key, value);
  }
  made.append(...parts);
  return made;
}

const line = (tag, cells) => element("tr", {}, ...cells.map((cell) => element(tag, {}, ...[cell].flat())));
const UNITS = ["bytes", "kB", "MB", "GB", "TB", "PB", "EB"];

// A number of bytes with a unit, to four digits, as short as it can be.
function volumeText(bytes) {
  let part = Number(bytes), unit = 0;
  for (; part >= 999.95 && unit + 1 < UNITS.length; unit++) part /= 1000;
  return `${Number(part.toFixed(1))} ${UNITS[unit]}`;
}

// A volume, whose title has all digits and says what it is.
function volumePart(bytes, what, before = "") {
  return element("span", { class: "volume", title: `${bytes} bytes: ${what}` }, before + volumeText(bytes));
}

const count = (number, what) => `${number} ${what}${number === 1 ? "" : "s"}`;

// ---- A contact ----

// Contacts that aren't lost for all answers, if there is a question.
const canBeLost = (contact) => Boolean(request) && !missing.has(contact);

// What is known of a contact: pairs of a name and a text.
function aboutContact(contact) {
  const { from, to } = links[linkOf[contact]], start = known.start[contact], light = known.light[contact];
  const through = allRoutes().filter((route) => route.uses.has(contact)).map((route) => route.label);
  return [
    ["from", fullName(from)],
    ["to", fullName(to)],
    ["start", timeText(start)],
    ["end", timeBeside(ends[contact], start)],
    ["lasts", durationText(known.length[contact])],
    ["rate", `${known.rate[contact]} bytes/s`],
    ["light time", light === null ? "none: in no route" : `${light} s`],
    ["volume", `${volumeText(roomFrom(contact, start))}, ${roomFrom(contact, start)} bytes`],
    ...(through.length ? [["routes", firstOnes(through)]] : []),
  ];
}

const MOST_TOLD = 20;

// Texts as a list, which says how many there are after the first ones.
function firstOnes(texts) {
  const left = texts.length - MOST_TOLD;
  return `${texts.slice(0, MOST_TOLD).join(", ")}${left > 0 ? ` and ${left} more` : ""}`;
}

function headOfContact(contact) {
  return `Contact ${known.number[contact]}${isLost(contact) ? ", lost" : ""}`;
}

function contactTip(contact, act) {
  const pairs = aboutContact(contact).flatMap((pair) => [element("dt", {}, pair[0]), element("dd", {}, pair[1])]);
  const parts = [element("h3", {}, headOfContact(contact)), element("dl", {}, ...pairs)];
  if (canBeLost(contact)) {
    const told = chosen.lost.has(contact) ? "it isn't lost" : "what if it is lost?";
    parts.push(element("div", { class: "do" }, `${act}: ${told}`));
  }
  return parts;
}

// ---- A route ----

const titleOfRoute = (route) => (isShownRoute(route) ? `Route ${route.rank}` : "Route then");

function routeTip({ route, hop, isWait }) {
  const head = `${titleOfRoute(route)}: ${timeText(route.delivery)}`;
  const parts = [element("h3", {}, head), hopTable(route, false)];
  if (isWait) {
    const node = fullName(links[linkOf[hop.contact]].from);
    parts.push(element("div", { class: "soft" }, `waits at ${node} until ${timeBeside(hop.send, route.delivery)}`));
  }
  return parts;
}

function hopTable(route, withButtons) {
  const head = ["contact", "to", "sent", "arrives", ...(withButtons ? ["volume", ""] : [])];
  return element("table", {}, line("th", head), ...route.hops.map((hop) => hopLine(route, hop, withButtons)));
}

function hopLine(route, hop, withButtons) {
  const { contact } = hop, times = [hop.send, hop.arrive].map((second) => timeParts(second, route.delivery));
  const texts = [String(known.number[contact]), nameOf(links[linkOf[contact]].to), ...times];
  if (!withButtons) return line("td", texts);
  const volume = volumePart(roomOfHop(hop), "what the contact can send from then on");
  return line("td", [...texts, volume, canBeLost(contact) ? lostButton(route, contact) : ""]);
}

function lostButton(route, contact) {
  const number = known.number[contact];
  const about = { class: "small", "data-key": `${route.place} ${number}`, "aria-label": `Contact ${number} lost` };
  return element("button", { ...about, "aria-pressed": chosen.lost.has(contact), onclick: () => lose(contact) }, "lost");
}

// Buttons that lose a node between the ends of a route.
function nodeButtons(route) {
  const button = (node) => {
    const about = { class: "small", "data-key": `${route.place} node ${node}`, "aria-label": `Node ${fullName(node)} lost` };
    return element("button", { ...about, "aria-pressed": chosen.gone.has(node), onclick: () => loseNode(node) }, nameOf(node));
  };
  return element("p", { class: "soft nodes" }, "lost node: ", ...route.nodes.slice(1, -1).map(button));
}

// ---- The tip at the mouse, or at the contact that has the cursor ----

function showTip(what, x, y, act = "Click") {
  const tip = byId("tip");
  tip.hidden = !what;
  if (!what) return;
  tip.replaceChildren(...(what.contact !== undefined ? contactTip(what.contact, act) : routeTip(what)));
  const { width, height } = tip.getBoundingClientRect();
  const isBelow = y + 18 + height < innerHeight;
  tip.style.left = `${Math.max(6, Math.min(x + 14, innerWidth - width - 6))}px`;
  tip.style.top = `${isBelow ? y + 18 : Math.max(6, y - height - 12)}px`;
}

const hideTip = () => showTip(null);

// ---- The list of routes ----

const PRINTED = 100; // so many routes a print lists, with their hops

function listRoutes() {
  const focused = document.activeElement;
  byId("told-routes").textContent = headOfList();
  const order = (one, other) => (other === bestThen()) - (one === bestThen()) || one.place - other.place;
  const all = [...allRoutes()].sort(order), shown = all.slice(0, isPrinting ? PRINTED : listed.most);
  byId("routes").replaceChildren(...shown.map(card), restOfList(all.length - shown.length));
  byId("lost").replaceChildren(...(isLosing() ? aboutLoss() : isStarting() ? aboutStart() : []));
  byId("lost").classList.toggle("start", isStarting());
  byId("empty").hidden = Boolean(request || routes.length);
  if (!focused.isConnected) focusLike(focused.dataset.key);
}

const LISTED = 500; // so many cards are made at a time
const listed = { most: LISTED };

// What follows the cards: how many routes aren't shown, or the next page.
function restOfList(left) {
  if (isPrinting) return left ? element("li", {}, `${count(left, "more route")} not printed`) : "";
  const button = (text, key, onclick) => element("li", { class: "rest" }, element("button", { "data-key": key, onclick }, text));
  if (left) return button(`Show ${Math.min(left, LISTED)} of ${count(left, "more route")}`, "rest", showMore);
  return request && hasMore() ? button(`Next ${count(Number(request.texts.count), "route")}`, "rest", askMore) : "";
}

function showMore() {
  listed.most += LISTED;
  listRoutes();
}

// The list was made anew, and keeps the focus: at the same button, or where all is taken back, or at the route's card.
function focusLike(key) {
  const places = [`[data-key="${key}"]`, "#lost .back", `[data-key="route ${parseInt(key)}"]`, "#chart"];
  places.map((it) => document.querySelector(it)).find(Boolean).focus();
}

function headOfList() {
  if (isAsking()) return bestThen() ? "The best route then, and those before" : "The routes before";
  if (!routes.length) return request ? "No route" : "";
  const told = count(routes.length, "route");
  return routes.length > HUES ? `${told}; the first ${HUES} are drawn, and one that is singled out` : told;
}

function card(route) {
  const isOpen = isOpenCard(route);
  const classes = [isBroken(route) && "gone", isFaint(route) && "off", isOpen && "on"].filter(Boolean);
  const item = element("li", { class: classes.join(" ") }, cardButton(route, isOpen));
  if (isOpen || isPrinting) {
    const hasNodes = request && route.nodes.length > 2;
    item.append(element("div", { class: "hops" }, hopTable(route, true), hasNodes ? nodeButtons(route) : ""));
  }
  item.style.setProperty("--hue", isBroken(route) ? ink.soft : ink.routes[route.place % HUES]);
  item.onmouseenter = () => glance(isShownRoute(route) ? route.place : null);
  item.onmouseleave = () => glance(null);
  return item;
}

// When the bundle is at the source for a route.
function startOf(route) {
  if (!request) return route.hops[0].send;
  return isStarting() && route === bestThen() ? chosen.start : request.at;
}

function isOpenCard(route) {
  return !isShownRoute(route) || chosen.route === route.place || (isAsking() && route === bestThen());
}

function cardButton(route, isOpen) {
  const about = { class: "route", "data-key": `route ${route.place}`, "aria-expanded": isOpen };
  const onfocus = ({ target }) => target.matches(":focus-visible") && glance(route.place);
  const acts = { onclick: () => single(route.place), onfocus, onblur: () => glance(null) };
  const took = `${count(route.hops.length, "hop")} in ${durationText(route.delivery - startOf(route))}`;
  const sendBy = `send by ${timeBeside(route.sendBy, route.delivery)} · `;
  const last = "the last second at the source for these contacts";
  return element(
    "button",
    { ...about, ...(isShownRoute(route) ? acts : {}) },
    element("span", { class: "rank", "aria-label": titleOfRoute(route) }, route.label),
    element("span", { class: "delivery" }, timeText(route.delivery)),
    element("span", { class: "late" }, lateText(route)),
    element("span", { class: "wide" }, pathOf(route)),
    element("span", { class: "wide soft" }, took),
    element(
      "span",
      { class: "wide soft" },
      element("span", { class: "by", title: last }, sendBy),
      volumePart(roomOfRoute(route), "the least of what its contacts can send", "volume "),
    ),
  );
}

function lateText(route) {
  const later = route.delivery - routes[0].delivery;
  if (isBroken(route)) return isStarting() ? "missed" : "lost";
  if (route === routes[0]) return route.rank === "1" ? "best" : "first shown";
  return later > 0 ? `+ ${durationText(later)}` : later < 0 ? `- ${durationText(-later)}` : "as good";
}

// ---- What is lost ----

function aboutLoss() {
  const best = bestThen(), head = element("div", { class: "told" }, element("b", {}, lostText()), linkOfLost());
  const forAll = element("button", { class: "small", onclick: loseForAll }, "List the routes without");
  return [head, ...next(best), ...toCopy(), ...(best ? [forAll] : []), backButton()];
}

const lostNumbers = () => [...chosen.lost].map((contact) => known.number[contact]);

// What is lost, in words.
function lostText() {
  const contacts = chosen.lost.size ? [`${chosen.lost.size > 1 ? "contacts" : "contact"} ${lostNumbers().join(", ")}`] : [];
  const told = `${[...contacts, ...[...chosen.gone].map((node) => `node ${fullName(node)}`)].join(" and ")} lost`;
  return told[0].toUpperCase() + told.slice(1);
}

const linkOfLost = () => (chosen.lost.size === 1 && !chosen.gone.size ? ` ${linkName(linkOf[[...chosen.lost][0]])}` : "");

function next(best) {
  if (best === undefined) return [element("div", { class: "told" }, then.told)];
  if (best === null) return [element("div", { class: "told big" }, "No route is left")];
  const rank = isShownRoute(best) ? `, route\u00a0${best.rank}` : "";
  return [
    element("div", { class: "told big" }, lossText(best)),
    element("div", { class: "told" }, `Next is: ${timeText(best.delivery)}`),
    element("div", { class: "told soft" }, `${pathOf(best)}${rank}`),
  ];
}

// The plan's lines that delete the contacts.
function toCopy() {
  if (!chosen.lost.size) return [];
  const text = element("pre", {}, [...chosen.lost].map(deletionOf).join("\n"));
  return [text, element("button", { class: "small", onclick: () => copyText(text) }, "Copy for the plan")];
}

// Puts a part's text where it can be pasted from, and marks it.
function copyText(part) {
  getSelection().selectAllChildren(part);
  document.execCommand("copy"); // pages from files have no other way in each browser
}

// How much later the best route without what is lost delivers than the first one that is shown.
function lossText(best) {
  const later = best.delivery - routes[0].delivery;
  if (best === routes[0]) return `Route ${best.rank} still holds`;
  if (later === 0) return "Not later";
  return later > 0 ? `${durationText(later)} later` : `${durationText(-later)} sooner`;
}

const backButton = () => element("button", { class: "small back", onclick: takeBack }, "Take back");

function takeBack() {
  const part = isStarting() ? table : chart;
  startOver();
  part.focus();
}
