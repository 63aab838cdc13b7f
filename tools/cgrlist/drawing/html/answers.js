// What the program answers: one cache of answers by question. It begins with those that were found when the page was made,
// and the engine, the proved program in this browser, gives the others.

const UNANSWERED = null; // the status where nothing answers
const LIMITS = ["marginPpm", "maxHops", "avoid"];
const QUESTION = ["from", "to", "at", ...LIMITS, "count"];
const TEXTS = [...QUESTION, "contacts", "keep", "session", "requests", "lists"];
const MOST_KEPT = 300; // answers, after which the first ones are forgotten
const LARGEST_KEPT = 500_000; // signs of an answer with its question
const BROWSERS = "Chrome, Edge, Firefox and Safari of 2023 and later";

const cache = new Map();
const waiting = new Set(); // the questions that the engine is asked

const unanswered = (message) => ({ status: UNANSWERED, report: "", session: "", message });

// ---- What is lost ----

const noLosses = { contacts: [], nodes: [] };

// What is lost for all answers, and some contacts and nodes besides: their numbers.
const lossesWith = (contacts, nodes) => ({
  contacts: numbersOf([...missing, ...contacts]),
  nodes: [...nodes].map((node) => known.nodes[node]).sort(byNumber),
});
const lossesBelow = () => lossesWith([], []);
const lossesNow = () => lossesWith(chosen.lost, chosen.gone);
const numbersOf = (contacts) => [...contacts].map((contact) => known.number[contact]).sort((one, other) => one - other);

// The plan's text with a line for each contact that is lost; with a node all its contacts are.
function textWithout({ contacts, nodes }) {
  const ofNodes = nodes.flatMap((node) => contactsOfNode(known.nodes.indexOf(node)));
  const lost = new Set([...contacts.map((number) => contactWith.get(number)), ...ofNodes]);
  return lost.size ? [app.plan.text, ...[...lost].map(deletionOf), ""].join("\n") : app.plan.text;
}

function deletionOf(contact) {
  const { from, to } = links[linkOf[contact]];
  return `d contact ${programTime(known.start[contact])} ${known.nodes[from]} ${known.nodes[to]}`;
}

// ---- Questions ----

const keyOf = (run, { contacts, nodes }, texts) =>
  JSON.stringify([run, contacts, nodes, ...TEXTS.map((name) => texts[name] ?? "")]);

// Forgets all answers, and keeps those that a file has.
function keepAnswers(seeds) {
  cache.clear();
  for (const { run, lost, texts, answer } of seeds) cache.set(keyOf(run, lost, texts), { run, lost, texts, answer });
}

function keepAnswer(run, lost, texts, answer) {
  const key = keyOf(run, lost, texts);
  if (key.length + JSON.stringify(answer).length > LARGEST_KEPT) return;
  if (cache.size >= MOST_KEPT) cache.delete(cache.keys().next().value);
  cache.set(key, { run, lost, texts, answer });
}

const keptAnswer = (run, lost, texts) => cache.get(keyOf(run, lost, texts))?.answer;

// The answer of a run over the plan without what is lost.
async function askOver(lost, run, texts) {
  const kept = keptAnswer(run, lost, texts);
  if (kept) return kept;
  const { plan } = app, answer = await askEngine(run, { ...texts, plan: textWithout(lost) });
  if (answer.status !== UNANSWERED && plan === app.plan) keepAnswer(run, lost, texts, answer);
  return answer;
}

// The answer of a run over the plan that is shown, without what is lost, or over another plan that is among the texts.
const askHere = (run, texts = {}) => ("plan" in texts ? askEngine(run, texts) : askOver(lossesNow(), run, texts));

// Asks the engine. What a browser that has none is told, says which have one.
function askEngine(run, texts) {
  const given = Object.fromEntries(Object.entries(texts).map(([name, value]) => [name, value ?? ""]));
  return new Promise((resolve) => {
    const end = (answer) => {
      waiting.delete(end);
      resolve(answer);
      tellBusy();
    };
    waiting.add(end);
    tellBusy();
    engine.ask(run, given).then(end, (error) => end(unanswered(isLacking() ? whyLacking() : error.message)));
  });
}

// Ends the questions that are asked, so that later ones don't wait for them.
function stopAsking() {
  const stopped = [...waiting];
  if (stopped.length) stopped.forEach(() => engine.stop());
  stopped.forEach((end) => end(unanswered("Stopped.")));
}

// ---- The engine ----

const isLacking = () => !["starting", "ready"].includes(engine.state);
const whyLacking = () => `This browser can't answer that (${engine.state}). ${BROWSERS} can.`;
