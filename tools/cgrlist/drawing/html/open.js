// Opening another plan: a file that is chosen or dropped, or a text that is pasted.

// Opens another plan, and asks a question of it, or else that of the plan before, if it has their nodes. What is no plan
// changes nothing; the page says why.
async function openPlan(name, text, question = null) {
  stopAsking();
  const opened = ++turn, answers = [await askEngine("canonical", { plan: text }), await askEngine("check", { plan: text })];
  const [canonical, check] = answers;
  if (opened !== turn) return unanswered("Another plan was opened.");
  if (check.status !== 0) return refusePlan({ name, text, message: messageOf(check) }, check);
  app.refused = null;
  tellRefused("");
  keepAnswers(["canonical", "check"].map((run, place) => ({ run, lost: noLosses, texts: {}, answer: answers[place] })));
  const asked = question ?? { ...request?.texts, at: "" };
  if (name !== app.plan.name) names.clear(); // they are those of another plan
  showOpened({ name, text, digest: digestIn(check) }, canonical);
  byId("at").value = timeText(contactCount ? earliest : 0);
  if (isOfPlan(asked)) await setRequest({ ...asked, at: asked.at || programTime(earliest) });
  return check;
}

const digestIn = (check) => /^digest (\S+)$/m.exec(check.report)?.[1] ?? "";
const messageOf = ({ message }) => message.replace(/^cgrlist: /, "").trim();
const isOfPlan = ({ from, to }) => [from, to].every((node) => known.nodes.includes(node));

function refusePlan(refused, check) {
  app.refused = refused;
  const told = [refused.message, REPAIRS[refused.message.split(" ").at(-1)]].filter(Boolean).join(": ");
  tellRefused(`${refused.name} isn't opened: ${formOf(refused.text) || told}`, check.status === PLAN_STATUS);
  announce("refused");
  return check;
}

const PLAN_STATUS = 3; // the text is no plan

// Shows a plan without routes.
function showOpened(plan, canonical) {
  [request, routes, starts] = [null, [], null];
  Object.assign(listing, { report: "", explained: "", session: "", isGiven: false });
  Object.assign(shows, { node: null, open: new Set(), chosen: null, isByHand: false });
  Object.assign(chosen, { route: null, contact: null });
  loseNothing();
  app.plan = plan;
  usePlan(contactsIn(canonical.report));
  fillQuestion();
  byId("below").hidden = true;
  isFit = false;
  showAnew();
  announce("plan");
}

// ---- Files and texts ----

byId("open").onclick = () => byId("file").click();
byId("file").onchange = ({ target }) => {
  if (target.files.length) openFile(target.files[0]);
  target.value = ""; // so that the same file can be opened again
};

const openFile = async (file) => openPlan(file.name, planText(new Uint8Array(await file.arrayBuffer())));

// The bytes of a plan's text as a text. Those that aren't UTF-8 become others that a plan can't have either.
function planText(bytes) {
  try {
    return new TextDecoder("utf-8", { fatal: true, ignoreBOM: true }).decode(bytes);
  } catch {
    return new TextDecoder("latin1").decode(bytes).replace(/[^\0-\x7f]/g, "\x7f");
  }
}

document.onpaste = (event) => {
  const text = event.clipboardData.getData("text");
  if (event.target.matches("input, textarea") || !text.trim().includes("\n")) return;
  event.preventDefault();
  openPlan("pasted plan", text);
};

const hasFile = (event) => [...event.dataTransfer.types].includes("Files");

document.ondragover = (event) => {
  if (!hasFile(event)) return;
  byId("drop").hidden = event.defaultPrevented; // a panel takes what is dropped on it
  event.preventDefault();
};

document.ondragleave = ({ relatedTarget }) => {
  if (!relatedTarget) byId("drop").hidden = true;
};

document.addEventListener("drop", () => (byId("drop").hidden = true), { capture: true });

document.ondrop = (event) => {
  if (!hasFile(event)) return;
  event.preventDefault();
  openFile(event.dataTransfer.files[0]);
};
