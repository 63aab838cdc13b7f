// Asking: the question in the bar, the routes that answer it, further pages, and what is best without what is lost.

const form = byId("question");
const listing = { report: "", explained: "", session: "", isGiven: false }; // the program's texts of the routes
let turn = 0; // of questions: what answers an earlier one isn't shown

// ---- The bar ----

// Puts what the plan has, and the question, into the bar.
function fillQuestion() {
  const asked = request?.texts ?? {};
  for (const name of ["from", "to"]) {
    const nodes = known.nodes.includes(asked[name]) || !asked[name] ? known.nodes : [...known.nodes, asked[name]];
    const option = (node) => element("option", { value: node }, titleOf(node));
    byId(name).replaceChildren(element("option", { value: "" }, "choose"), ...nodes.map(option));
    byId(name).value = asked[name] ?? "";
  }
  byId("limits").classList.toggle("set", LIMITS.some((name) => asked[name]));
  const further = known.nodes.map((node) => element("option", { value: node }, titleOf(node)));
  byId("further").replaceChildren(element("option", { value: "" }, "add a node"), ...further);
  if (!request) return;
  byId("at").value = timeText(request.at);
  byId("count").value = asked.count || FEW;
  for (const name of LIMITS) byId(name).value = asked[name] ?? "";
}

const FEW = "3"; // routes that are asked for at first

// The question in the bar, as the program takes it. A time without a day is that of the nearest day in view.
function questionInBar() {
  const asked = Object.fromEntries(QUESTION.map((name) => [name, byId(name).value.trim()]));
  const found = timesFor(asked.at.toLowerCase())[0]?.second;
  const avoid = asked.avoid.split(/[\s,]+/).filter(Boolean).sort(byNumber).join(",");
  return { ...asked, avoid, at: found === undefined ? asked.at : programTime(found) };
}

// Asks what stands in the bar. The routes take the place of the plan's text.
function askBar() {
  if (!byId("panel-plan").hidden) showPanel("routes");
  setRequest(questionInBar());
}

form.onsubmit = (event) => {
  event.preventDefault();
  askBar();
};

// A choice asks at once, and a text when Enter is pressed.
form.onchange = ({ target }) => {
  if (!target.matches("select")) return;
  if (target.id === "further") {
    byId("avoid").value = [byId("avoid").value, target.value].filter(Boolean).join(",");
    target.value = "";
  }
  if (byId("from").value && byId("to").value) askBar();
};

byId("limits").onkeydown = ({ key, currentTarget }) => {
  if (key !== "Escape") return;
  currentTarget.open = false;
  currentTarget.firstElementChild.focus();
};

document.addEventListener("pointerdown", ({ target }) => {
  if (!byId("limits").contains(target)) byId("limits").open = false;
});

// Shows that the engine is at work, and that it can be stopped, if that takes longer than a moment.
function tellBusy() {
  clearTimeout(tellBusy.due);
  const show = () => {
    if (!waiting.size && document.activeElement === byId("stop")) byId("ask").focus(); // it goes away
    document.body.classList.toggle("busy", waiting.size > 0);
    byId("listing").setAttribute("aria-busy", waiting.size > 0);
    byId("stop").hidden = !waiting.size;
  };
  tellBusy.due = setTimeout(show, waiting.size ? 150 : 0);
}

const tell = (text) => (byId("told").textContent = text);

function tellRefused(text, isPlan = false) {
  const toPlan = element("button", { type: "button", class: "small", onclick: () => showPanel("plan") }, "Show the text");
  byId("refused").replaceChildren(...(text ? [text, isPlan ? toPlan : ""] : []));
}

// ---- Questions ----

// Asks a question, which then stands in the bar.
async function setRequest(texts) {
  stopAsking();
  const mine = ++turn, below = lossesBelow();
  const asked = { ...Object.fromEntries(QUESTION.map((name) => [name, texts[name] ?? ""])), count: texts.count || FEW };
  const answer = keptAnswer("first", below, asked) ?? (await askOver(below, "first", { ...asked, keep: "yes" }));
  return mine === turn ? showAnswer(answer, asked, []) : answer;
}

// Shows the routes of an answer after those of the pages before. Why there are none is told.
async function showAnswer(answer, asked, before) {
  const mine = turn, found = await routesOf(answer, asked, before.length);
  if (mine !== turn) return answer;
  tellRefused(found.status === 0 ? "" : messageOf(found));
  if (found.status !== 0) return found;
  const [pages, hops] = before.length ? [listing.report.replace(/more\n$/, ""), listing.explained] : ["", ""];
  const report = pages + answer.report, explained = hops + found.report;
  Object.assign(listing, { report, explained, session: answer.session, isGiven: false });
  takeRoutes(asked, [...before, ...found.routes]);
  return answer;
}

// Shows routes of a question.
function takeRoutes(asked, found) {
  const isFurther = asked === request?.texts;
  if (!isFurther) request = asked && { texts: asked, at: secondOf(asked.at) };
  routes = found;
  isFromFirst = routes.every((route, place) => route.rank === String(place + 1));
  for (const link of links) link.rank = Infinity;
  if (data.byRoute) rankLinks(routes);
  loseNothing();
  if (isFurther) change();
  else {
    chosen.route = null;
    fillQuestion();
    showAnew();
  }
  askTimetable();
  byId("said").textContent = routes.length ? `${headOfList()}. Best delivery: ${timeText(routes[0].delivery)}` : headOfList();
  announce("routes");
}

const hasMore = () => !listing.isGiven && listing.report.endsWith("more\n");

// The session text after the routes that are shown. If it isn't known, they are asked for again; it is empty if nothing
// answers.
async function sessionText() {
  if (!listing.session && request && isFromFirst) {
    const asked = { ...request.texts, count: String(routes.length || 1), keep: "yes" };
    const of = request, { session } = await askOver(lossesBelow(), "first", asked);
    if (of === request) listing.session = session;
  }
  return listing.session;
}

// Asks for the next page.
async function askMore() {
  const mine = ++turn, of = request, session = await sessionText();
  if (mine !== turn) return;
  if (!session) return tellRefused(isLacking() ? whyLacking() : "Stopped.");
  const answer = await askOver(lossesBelow(), "next", { session, count: of.texts.count, keep: "yes" });
  if (mine === turn) await showAnswer(answer, of.texts, routes);
}

// Shows the page that follows a session text.
async function goOn(session) {
  stopAsking();
  const mine = ++turn, count = byId("count").value || FEW;
  const answer = await askOver(lossesBelow(), "next", { session, count, keep: "yes" });
  return mine === turn ? showAnswer(answer, { ...requestIn(session), count }, []) : answer;
}

// The request that a session text is of.
function requestIn(session) {
  const [, from, to, at, marginPpm, maxHops, nodes] = /^request (\S+) (\S+) (\S+) (\S+)(?: (\S+) \/ (.+))?$/m.exec(session) ?? [];
  const avoid = (nodes ?? "-").replace(/^-$/, "").replaceAll(" ", ",");
  return { from, to, at, marginPpm: marginPpm === "0" ? "" : marginPpm, maxHops: maxHops === ANY_HOPS ? "" : maxHops, avoid };
}

// ---- What is lost ----

// Asks what is best without what is lost, if the page doesn't know it.
async function askThen() {
  const { of } = then;
  then.told = "Asking ..";
  const asked = await askOver(lossesNow(), "first", { ...request.texts, count: "1" });
  const answer = asked.status === UNANSWERED ? keptWithoutPart() ?? asked : asked;
  const found = await routesOf(answer, request.texts, routes.length, "★");
  if (of !== then.of) return;
  Object.assign(then, found.status === 0 ? { best: found.routes[0] ?? null, told: "" } : { told: messageOf(found) });
  change();
  bringIntoView();
}

// What is best without a part of what is lost, if the page knows it, and if it holds without all: then it is best without all.
function keptWithoutPart() {
  const parts = [...[...chosen.lost].map((it) => [[it], []]), ...[...chosen.gone].map((it) => [[], [it]])];
  const kept = parts.map((part) => keptAnswer("first", lossesWith(...part), { ...request.texts, count: "1" }));
  return kept.find((it) => it && routesIn(it.report).every(holds));
}

// Takes what is lost out of the plan for all answers, and asks the question anew.
function loseForAll() {
  const ofNodes = [...chosen.gone].flatMap(contactsOfNode);
  missing = new Set([...missing, ...chosen.lost, ...ofNodes]);
  return setRequest(request.texts);
}

function loseNoneForAll() {
  missing = new Set();
  return request ? setRequest(request.texts) : change();
}
