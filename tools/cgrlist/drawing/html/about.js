// What the page says of itself: its version, and whether the engine answers here.

const about = jsonIn("about");
const FACTS = {
  version: "Version",
  commit: "Commit",
  kit: "Kit of the prover",
  module: "SHA-256 of the module",
  sources: "SHA-256 of its sources",
};

// What the engine of this browser can. What was told before, as of a link, stays.
function tellEngine() {
  const isHere = engine.state === "ready";
  const here = `cgrlist ${about.version}: proved answers, computed in this page. No data leaves it.`;
  const told = isHere ? here : `This page shows what was found when it was made. ${BROWSERS} answer the rest.`;
  if (!byId("told").textContent) tell(told);
  const lack = `It doesn't answer here: ${engine.state}. ${BROWSERS} have what it needs.`;
  byId("engine").textContent = isHere ? "It answers in this browser." : lack;
}

// What the record of the module says, and what the file's maker remarks.
function tellAbout() {
  const facts = Object.keys(FACTS).filter((name) => about[name]);
  byId("facts").replaceChildren(...facts.flatMap((name) => [element("dt", {}, FACTS[name]), element("dd", {}, about[name])]));
  byId("remarks").textContent = data.remarks.map((it) => `${it}. `).join("");
}
