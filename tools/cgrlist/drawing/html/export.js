// What can be saved: the program's report, the routes in the forms of tools/report, the picture, the plan, and the page.

function save(name, kind, text) {
  const link = element("a", { href: URL.createObjectURL(new Blob([text], { type: kind })), download: name });
  link.click();
  setTimeout(() => URL.revokeObjectURL(link.getAttribute("href")), 1000);
}

const fileName = (end) => `${app.plan.name.replace(/\.[^.]*$/, "")}.${end}`;

// ---- Values -----------------------------------------------------------------------------------------------------

// The values of a route and of a hop under the fields of tools/report; times are seconds, nodes places, volumes texts.
const routeFields = (route) => ({
  rank: Number(route.rank) || null,
  delivery: route.delivery,
  hops: route.hops.length,
  entry: route.nodes[1],
  until: route.until,
  send_by: route.sendBy,
  contacts: route.contacts,
  nodes: route.nodes,
  room: String(roomOfRoute(route)),
});

function hopFields(hop) {
  const { from, to } = links[linkOf[hop.contact]], number = known.number[hop.contact];
  return { contact: number, from, to, send: hop.send, arrive: hop.arrive, room: String(roomOfHop(hop)) };
}

const TIMES = ["delivery", "until", "send_by", "send", "arrive"], NODES = ["entry", "from", "to"];
const isoText = (second) => `${new Date(second * 1000).toISOString().slice(0, 19)}Z`;

// ---- Comma-separated values -------------------------------------------------------------------------------------

const timeOfCsv = (second) => (data.iso ? isoText(second) : isoText(second).slice(0, 19).replace("T", " "));

// A cell. One that a spreadsheet would take for a formula begins with a quote.
function cell(value) {
  const text = String(value ?? ""), isFormula = /^[=+\-@\t\r]/.test(text) && !/^[+-]?\d*$/.test(text);
  const safe = isFormula ? `'${text}` : text;
  return /[",\r\n]/.test(safe) ? `"${safe.replaceAll('"', '""')}"` : safe;
}

const csvOf = (rows) => rows.map((cells) => `${cells.map(cell).join(",")}\n`).join("");

function csvValue([field, value]) {
  if (value === null) return "";
  if (TIMES.includes(field)) return timeOfCsv(value);
  if (NODES.includes(field)) return nameOf(value);
  return field === "nodes" ? value.map(nameOf).join(" > ") : Array.isArray(value) ? value.join(" ") : value;
}

const csvRow = (fields) => Object.entries(fields).map(csvValue);

// A line for each route, and one for each hop of each route.
const routesCsv = () => csvOf([Object.keys(routeFields(routes[0])), ...routes.map((it) => csvRow(routeFields(it)))]);

function hopsCsv() {
  const rows = routes.flatMap((it) => it.hops.map((hop, place) => [it.rank, place + 1, ...csvRow(hopFields(hop))]));
  return csvOf([["rank", "hop", ...Object.keys(hopFields(routes[0].hops[0]))], ...rows]);
}

// ---- JSON -------------------------------------------------------------------------------------------------------

// A function that leaves texts of numbers as numbers, or as texts if one of some numbers isn't exact in JSON.
const exactly = (numbers) => (numbers.every((it) => BigInt(it) <= Number.MAX_SAFE_INTEGER) ? Number : String);

// The routes with their hops as JSON, a route a line.
async function routesJson() {
  const node = exactly(known.nodes), rooms = known.number.map((_, contact) => roomFrom(contact, known.start[contact]));
  const amount = exactly(rooms);
  const value = (field, it) => {
    if (it === null) return null;
    if (TIMES.includes(field)) return isoText(it);
    if (NODES.includes(field)) return node(known.nodes[it]);
    return field === "nodes" ? it.map((place) => node(known.nodes[place])) : field === "room" ? amount(it) : it;
  };
  const told = (fields) => Object.fromEntries(Object.entries(fields).map(([field, it]) => [field, value(field, it)]));
  const path = (route) => route.hops.map((hop) => told(hopFields(hop)));
  const rows = routes.map((route) => JSON.stringify({ ...told(routeFields(route)), path: path(route) }));
  const after = JSON.stringify({ ...(request ? { request: requestJson(node) } : {}), ...(await aboutJson()) });
  return `{"routes": [\n  ${rows.join(",\n  ")}],\n ${after.slice(1)}\n`;
}

function requestJson(node) {
  const { from, to, marginPpm, maxHops, avoid } = request.texts;
  const limits = { margin_ppm: Number(marginPpm || 0), max_hops: Number(maxHops) || null };
  const ends = { from: node(from), to: node(to), at: isoText(request.at) };
  return { ...ends, ...limits, avoid: avoid ? avoid.split(",").map(node) : [] };
}

async function aboutJson() {
  const passed = new Set(routes.flatMap((it) => it.nodes.map((place) => known.nodes[place])));
  const digest = digestIn(await askOver(lossesBelow(), "check", {})), end = listing.report ? listing.report.endsWith("end\n") : null;
  const told = Object.fromEntries([...names].filter(([node]) => passed.has(node)));
  return { looked_at: routes.length, end, names: told, plan: digest, version: about.version };
}

// ---- The page ---------------------------------------------------------------------------------------------------

// What a file needs so that it opens with what this page shows.
const dataNow = () => ({
  ...data,
  name: app.plan.name,
  names: Object.fromEntries(names),
  plan: app.plan.text,
  span: null,
  links: null,
  lost: numbersOf(missing),
  request: request?.texts ?? null,
  given: listing.isGiven ? { report: listing.report, explained: listing.explained } : null,
  answers: [...cache.values()],
});

// This page's file with other data inside.
function pageText(inside) {
  const [begin, end] = ['<script type="application/json" id="data">', "<\/script>"];
  const from = file.indexOf(begin) + begin.length;
  const json = JSON.stringify(inside).replaceAll("<", "\\u003c");
  return `<!DOCTYPE html>\n${file.slice(0, from)}${json}${file.slice(file.indexOf(end, from))}\n`;
}

// ---- The panel --------------------------------------------------------------------------------------------------

const saveReport = () => save(fileName("report"), "text/plain", listing.report);
const saveRoutes = () => save(fileName("csv"), "text/csv", routesCsv());
const saveHops = () => save(fileName("hops.csv"), "text/csv", hopsCsv());
const saveJson = async () => save(fileName("json"), "application/json", await routesJson());
const savePicture = () => save(fileName("svg"), "image/svg+xml", svgText(0, AXIS + rows.height));
const savePlan = () => save(app.plan.name, "text/plain", textWithout(lossesNow()));
const savePage = () => save(fileName("html"), "text/html", pageText(dataNow()));

const kinds = { Report: saveReport, CSV: saveRoutes, "CSV of hops": saveHops, JSON: saveJson };
const needingRoutes = Object.entries(kinds).map(([name, act]) => actButton(name, act));

function saving(label, ...parts) {
  return element("div", { class: "saving", role: "group", "aria-label": label }, element("h3", {}, label), ...parts);
}

addPanel("save", "Save", [
  saving("Routes", ...needingRoutes),
  saving("Picture", actButton("SVG", savePicture), actButton("Print", () => print())),
  saving("Plan, without what is lost", actButton("Text", savePlan)),
  saving("This page, with plan, question and answers", actButton("HTML", savePage)),
  saving("Link to this question, for this page and plan", ...linkParts()),
], showSaved);

// Shows what can be saved now.
function showSaved() {
  for (const button of needingRoutes) button.disabled = !routes.length;
  needingRoutes[0].disabled = !listing.report;
  showLink();
}

listeners.push(showSaved);
