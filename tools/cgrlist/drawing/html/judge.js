// The panel that judges what a router chose: a row for each choice, and its hops if it is opened.

const MOST_ROWS = 1000; // that are shown

const judgement = { told: [], isRunning: false };
const CHOICES = { id: "choices", placeholder: "4,11,2\n5 12 2\n4,12,2 31 1 2030-01-01T00:45:00Z\n-" };
const choiceField = textField("Contacts that a router chose, a line each; a request may follow", CHOICES, () => judge());
const firstNumber = element("select", {}, element("option", {}, "1"), element("option", {}, "0"));
const lateAfter = element("input", { type: "number", min: 0, value: 0 });
const onlyWrong = element("input", { type: "checkbox" });
const judgeState = statusLine();
const judgeTable = element("div", { class: "judged" });

// Judges the choices in the field over the plan as it is now.
async function judge() {
  if (judgement.isRunning) return;
  const plan = textWithout(lossesNow()), ask = (run, texts) => askEngine(run, { ...texts, plan }); // not stored: they may be many
  const choices = choicesOf(choiceField.area.value, Number(firstNumber.value));
  if (!choices.length) return void (judgeState.textContent = "There is no choice yet.");
  tellJudging(true);
  try {
    showJudged(await judged(ask, choices, (text) => (judgeState.textContent = `${text} ..`)));
  } catch (error) {
    showJudged([]);
    judgeState.textContent = error.message;
  }
  tellJudging(false);
}

function tellJudging(isRunning) {
  judgement.isRunning = judgeButton.disabled = isRunning;
  stopButton.hidden = !isRunning;
}

// Shows what choices do, as the fields beside them ask for it.
function showJudged(told) {
  judgement.told = told;
  saveJudged.hidden = !told.length;
  const most = Number(lateAfter.value), chosen = onlyWrong.checked ? told.filter((it) => isWrong(it, most)) : told;
  const sum = told.length ? `${sumOf(told, most)}${withoutLost()}.` : "", left = chosen.length - MOST_ROWS;
  judgeState.textContent = left > 0 ? `${sum} ${count(left, "more row")} not shown, but saved.` : sum;
  const head = line("th", ["line", "rank", "delivery", "later", "contacts"]);
  const rows = chosen.slice(0, MOST_ROWS).flatMap((it) => judgedRows(it, most, chosen.length === 1));
  judgeTable.replaceChildren(rows.length ? element("table", {}, head, ...rows) : "");
}

// The row of a choice, and one below it that tells more.
function judgedRows(it, most, isOpen) {
  const below = element("tr", { class: "more", hidden: !isOpen }, element("td", { colspan: 5 }, ...aboutChoice(it)));
  const turn = () => button.setAttribute("aria-expanded", !(below.hidden = !below.hidden));
  const button = actButton(String(it.place), turn, { class: "small", "aria-expanded": isOpen, "aria-label": `Line ${it.place}` });
  const later = it.later === 0 ? "" : durationText(it.later ?? 0);
  const told = it.delivery ? [it.rank, timeText(it.delivery), later].map((text) => element("td", {}, text)) : [faultCell(it)];
  const cells = [element("td", {}, button), ...told, element("td", {}, contactsText(it))];
  return [element("tr", { class: isWrong(it, most) ? "wrong" : "" }, ...cells), below];
}

const contactsText = ({ contacts }) => (contacts ? contacts.join(" ") || NONE : "");

function faultCell(it) {
  if (!it.fault) return element("td", { colspan: 3 }, RIGHTLY_NONE);
  return element("td", { colspan: 3, class: "bad", title: faultText(it) }, it.fault);
}

// What a choice is, in words, and its hops as far as they go.
function aboutChoice(it) {
  const asked = it.asked ? element("p", { class: "soft" }, `request ${it.asked}`) : "";
  const hops = it.hops.length ? hopTable({ hops: it.hops, delivery: it.delivery ?? it.hops.at(-1).arrive }, false) : "";
  return [element("p", {}, verdictOf(it)), hops, asked];
}

function verdictOf(it) {
  if (!it.delivery) return it.fault ? faultText(it) : RIGHTLY_NONE;
  const rank = it.rank.startsWith(">") ? `A route, not among the first ${it.rank.slice(1)}` : `Route ${it.rank} of all`;
  const later = it.later ? `${durationText(it.later)} after the best one` : "as early as the best one";
  return `${rank}: delivery ${timeText(it.delivery)}, ${later}`;
}

const RIGHTLY_NONE = "there is no route";

// What a fault means, and of a hop's fault which contact has it.
function faultText({ fault, contacts, hops }) {
  const [, hop, kind] = /^(?:hop (\d+): )?(\w+)$/.exec(fault) ?? [], number = contacts?.[hops.length];
  const link = contactWith.has(number) ? ` (${linkName(linkOf[contactWith.get(number)])})` : "";
  if (fault === HAS_ROUTE) return "There is a route";
  return HOP_FAULTS[kind] ? `${hop ? `Hop ${hop}, contact ${number}${link}: ` : ""}${HOP_FAULTS[kind]}` : fault;
}

// The judged choices as comma-separated values, below the fields of tools/report.
function judgedCsv(told) {
  const ofRequest = ["from", "to", "at", "margin_ppm", "max_hops", "avoid"];
  const named = (node) => names.get(node) ?? node, time = (second) => second && timeOfCsv(second);
  const rows = told.map((it) => {
    const [from, to, at = "", margin, hops, avoid = ""] = it.asked?.split(" ") ?? [], most = hops === ANY_HOPS ? "" : hops;
    const asked = [named(from), named(to), time(secondOf(at)), margin, most, avoid.split(",").map(named).join(",")];
    return [it.place, ...asked, it.rank, time(it.delivery), it.later, contactsText(it), it.fault];
  });
  return csvOf([["line", ...ofRequest, "rank", "delivery", "later", "contacts", "fault"], ...rows]);
}

const judgeButton = actButton("Judge", judge, { class: "main", title: "Ctrl+Enter" });
const stopButton = actButton("Stop", stopAsking, { hidden: true });
const saveChoices = () => save(fileName("choices.csv"), "text/csv", judgedCsv(judgement.told));
const saveJudged = actButton("Save CSV", saveChoices, { hidden: true });
const openChoices = fileButton("Open a file", choiceField.area, (_, text) => {
  choiceField.area.value = text;
  judge();
});
lateAfter.onchange = onlyWrong.onchange = () => showJudged(judgement.told);

addPanel("judge", "Judge", [
  choiceField.part,
  element("div", { class: "acts" }, judgeButton, stopButton, openChoices, saveJudged),
  element(
    "div",
    { class: "acts soft" },
    inLabel("first contact is number ", firstNumber),
    inLabel("late after ", lateAfter, " s"),
    inLabel("", onlyWrong, " only wrong ones"),
  ),
  judgeState,
  judgeTable,
]).classList.add("wide");

listeners.push((what) => {
  if (what === "plan") showJudged([]);
});
