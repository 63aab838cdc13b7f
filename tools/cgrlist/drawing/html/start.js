// The beginning: buttons, light and dark, printing, and the state that the address keeps, as `#lost=11&theme=dark`.

const opened = () => new URLSearchParams(location.hash.slice(1));
const surroundings = matchMedia("(prefers-color-scheme: dark)");
const theme = { isDark: false, isChosen: opened().has("theme"), before: false };

function useTheme(isDark) {
  theme.isDark = isDark;
  document.documentElement.dataset.theme = isDark ? "dark" : "light";
  readColours();
}

function changeTheme(isDark) {
  useTheme(isDark);
  listRoutes();
  paintMap();
  draw();
}

function chooseTheme() {
  theme.isChosen = true;
  changeTheme(!theme.isDark);
  remember();
}

// ---- The head and the buttons ----

function tellHead() {
  document.title = `${app.plan.name} · cgrlist`;
  byId("title").textContent = app.plan.name;
  const limits = Object.entries(request?.texts ?? {}).filter(([name, text]) => LIMITS.includes(name) && text);
  const told = limits.map(([name, text]) => `, ${LIMIT_WORDS[name](text)}`).join("");
  const asks = () => `${titleOf(request.texts.from)} → ${titleOf(request.texts.to)}, bundle at the source ${timeText(request.at)}`;
  const size = [count(contactCount, "contact"), count(links.length, "link")];
  byId("asks").textContent = request ? `${asks()}${data.iso ? "" : " UTC"}${told}` : size[0];
  byId("size").textContent = size.join(", ");
  byId("digest").textContent = app.plan.digest;
  const isAlone = !request && !routes.length;
  document.body.classList.toggle("alone", isAlone);
  chart.setAttribute("aria-label", `${[...size, count(routes.length, "route")].join(", ")}. Arrow keys go from contact to contact.`);
}

const LIMIT_WORDS = {
  marginPpm: (text) => `margin ${text} ppm`,
  maxHops: (text) => `at most ${text} ${text === "1" ? "hop" : "hops"}`,
  avoid: (text) => `avoiding ${text}`,
};

function prepareButtons() {
  const passed = new Set(routes.flatMap((route) => route.hops.map((hop) => linkOf[hop.contact]))).size;
  byId("some").textContent = `Route links (${passed})`;
  byId("all").textContent = `All links (${links.length})`;
  byId("some").disabled = byId("fit").disabled = !passed;
  return passed;
}

const does = {
  some: () => showLinks("some"),
  all: () => showLinks("all"),
  one: () => showLinks(shows.links),
  none: () => loseNode(shows.node),
  stop: stopAsking,
  without: loseNoneForAll,
  out: () => zoom(ZOOM),
  in: () => zoom(1 / ZOOM),
  fit: showRoutes,
  whole: showPlan,
  theme: chooseTheme,
  keys: () => byId("help").showModal(),
};

// Shows another plan, or the routes of another question, as at the beginning.
function showAnew() {
  tellHead();
  const passed = prepareButtons(), isSome = data.linksAtFirst ? data.linksAtFirst === "some" : links.length > MANY;
  if (!passed) shows.links = "all";
  else if (!shows.isByHand) shows.links = isSome ? "some" : "all";
  listed.most = LISTED;
  pointed.what = pointed.route = null;
  [view.first, view.last] = spanOfRoutes();
  view.widest = view.last - view.first;
  change();
}

// ---- The address ----

// Keeps what is chosen in the address, so that it can be given on. Some browsers refuse that for files.
function remember() {
  const state = new URLSearchParams(linkState());
  if (chosen.lost.size) state.set("lost", lostNumbers().join(","));
  if (isStarting()) state.set("at", timeText(chosen.start));
  if (chosen.gone.size) state.set("avoid", [...chosen.gone].map((node) => known.nodes[node]).join(","));
  if (chosen.route !== null) state.set("route", routes[chosen.route].rank);
  if (theme.isChosen) state.set("theme", theme.isDark ? "dark" : "light");
  if (location.hash === (state.size ? `#${state}` : "")) return;
  try {
    history.replaceState(null, "", state.size ? `#${state}` : location.pathname + location.search);
  } catch {
    // it is a help, and nothing depends on it
  }
}

// What the address says is chosen.
function recall(state) {
  const listed = (name) => state.get(name)?.split(",") ?? [];
  const lost = listed("lost").map((number) => contactWith.get(Number(number))).filter((it) => it !== undefined && canBeLost(it));
  const gone = listed("avoid").map((node) => known.nodes.indexOf(node)).filter((node) => node >= 0 && request);
  const route = routes.find((it) => it.rank === state.get("route"));
  Object.assign(chosen, { lost: new Set(lost), gone: new Set(gone), route: null });
  recallStart(state);
  if (route && !isAsking()) chosen.route = route.place;
  if (state.has("theme")) useTheme(state.get("theme") === "dark");
}

// The second at the source that the address says, once the timetable is there.
function recallStart(state = opened()) {
  const [found] = starts && state.has("at") && !isLosing() ? timesFor(state.get("at").toLowerCase()) : [];
  chosen.start = found?.second ?? null;
}

// The address was changed by hand.
addEventListener("hashchange", async () => {
  const state = opened();
  theme.isChosen = state.has("theme");
  await recallLink(state);
  recall(state);
  change();
  paintMap();
  bringIntoView();
});

// ---- Opening, light and dark, prints ----

// Shows what stands in the file. It needs no engine.
async function start() {
  useTheme(surroundings.matches);
  for (const [name, action] of Object.entries(does)) byId(name).onclick = action;
  addPanel("about", "About", [byId("about-page")]);
  showPanel("routes");
  tellAbout();
  const state = opened();
  keepAnswers(data.answers);
  const [canonical, check] = [await askOpening("canonical"), await askOpening("check")];
  showOpened({ name: data.name, text: data.plan, digest: digestIn(check) }, canonical);
  if (canonical.status !== 0) tellRefused(messageOf(canonical));
  missing = new Set(data.lost.map((number) => contactWith.get(number)));
  if (data.given) takeGiven(data.given);
  else if (data.request) await setRequest(data.request);
  if (data.links) shows.chosen = new Set(data.links.map(placeOfLink));
  await recallLink(state);
  recall(state);
  if (data.span) showSpan(...data.span);
  view.widest = view.last - view.first;
  change();
  fitAll();
  if (isAsking()) bringIntoView();
  new ResizeObserver(() => isPrinting || isOfPage() || fitAll()).observe(scroller);
}

const askOpening = async (run) => keptAnswer(run, noLosses, {}) ?? askEngine(run, { plan: data.plan });
const placeOfLink = ([from, to]) => links.findIndex((it) => known.nodes[it.from] === from && known.nodes[it.to] === to);

// Shows routes that the file's maker chose.
function takeGiven({ report, explained: told }) {
  const hops = explainedIn(told);
  Object.assign(listing, { report, explained: told, session: "", isGiven: true });
  takeRoutes(data.request, routesIn(report).map((route, place) => withHops(route, hops[place].hops, place)));
}

surroundings.onchange = () => theme.isChosen || changeTheme(surroundings.matches);

// A print is light, and has all rows that are chosen and the hops of the first routes.
addEventListener("beforeprint", () => {
  theme.before = theme.isDark;
  isPrinting = true;
  useTheme(false);
  listRoutes();
  makeSheets();
});

addEventListener("afterprint", () => {
  isPrinting = false;
  byId("sheets").replaceChildren();
  fitAll();
  changeTheme(theme.before);
});

engine.started.then(() => {
  tellEngine();
  announce("engine");
});
start();
