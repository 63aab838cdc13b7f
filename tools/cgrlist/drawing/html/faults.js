// The plan's text, which can be changed, and its bad lines: the engine names the first one, and then the next ones over the
// text without those before.

const MOST_FAULTS = 200; // bad lines that are looked for
const MOST_SHOWN = 80; // characters of a line
const LINE_HEIGHT = 18; // pixels, as page.css has it
const REST = 400; // milliseconds without a key, after which a changed text is checked

// ---- Bad lines --------------------------------------------------------------------------------------------------

const FORMS = [
  [/^(\x1f|BZh|PK\x03\x04|.7zXZ|\(.\/.)/, "compressed: unpack it first"],
  [/^([\x7f\ufffd]{2}|.?\0)/, "text in UTF-16: iconv -f UTF-16 -t UTF-8 FILE makes it UTF-8"],
  [/^\s*\{/, "JSON: if it is HDTN's, tools/from_ionrc --form hdtn FILE makes a plan of it"],
  [/^\s*\[/, "JSON, which has no plan's lines"],
  [/^\s*</, "XML, which has no plan's lines"],
];

// What a text is that is no plan's, and how it is converted; nothing if it may be one.
function formOf(text) {
  const form = FORMS.find(([begin]) => begin.test(text));
  return form ? `This is ${form[1]}` : "";
}

// The bad lines of a text, each `{ line, reason, text }`, and the last answer; `isAll` is false if there may be more of
// them. `goesOn` is told how many were found, and says whether more are looked for; if not, it is null.
async function faultsOf(ask, text, goesOn) {
  const lines = text.split("\n"), faults = [];
  for (;;) {
    const answer = await ask("check", { plan: lines.join("\n") });
    if (!goesOn(faults.length)) return null;
    const [, place, reason] = /plan line (\d+): (\w+)/.exec(answer.message) ?? [], line = Number(place);
    if (!place || lines[line - 1] === "#" || faults.length === MOST_FAULTS) return { faults, answer, isAll: !place };
    faults.push({ line, reason, text: lines[line - 1] });
    lines[line - 1] = "#"; // a comment, so that the others keep their numbers
  }
}

// ---- The panel --------------------------------------------------------------------------------------------------

// The text in the field: its file's name, how it was given, how many lines it has, and the bad ones; and whether another one
// is to be shown.
const edited = { name: "", given: "", lines: 1, bad: new Set(), turn: 0, timer: 0, isOld: true };
const gutter = element("pre", { class: "gutter", "aria-hidden": "true" });
const planField = textField("The plan's text", { id: "planText", wrap: "off", rows: 16 }, () => useText(), gutter);
const planArea = planField.area;
const planState = statusLine();
const faultList = element("ol", { class: "faults", "aria-label": "Bad lines" });

// The numbers of the lines in view, with the bad ones marked.
function paintGutter() {
  const first = Math.floor(planArea.scrollTop / LINE_HEIGHT), most = Math.ceil(planArea.clientHeight / LINE_HEIGHT) + 1;
  const numbers = Array.from({ length: Math.min(most, edited.lines - first) }, (_, place) => first + place + 1);
  gutter.replaceChildren(...numbers.map((line) => element("span", edited.bad.has(line) ? { class: "bad" } : {}, `${line}\n`)));
  gutter.style.transform = `translateY(${-(planArea.scrollTop % LINE_HEIGHT)}px)`;
}

function goToLine(line) {
  const lines = planArea.value.split("\n"), start = lines.slice(0, line - 1).reduce((sum, it) => sum + it.length + 1, 0);
  planArea.focus();
  planArea.setSelectionRange(start, start + lines[line - 1].length);
  planArea.scrollTop = (line - 4) * LINE_HEIGHT;
  paintGutter();
}

// Shows a text of that name, and checks it.
function showText(name, text) {
  Object.assign(edited, { name, given: text, isOld: false });
  if (planArea.value !== asInField(text)) planArea.value = asInField(text);
  countLines();
  checkText();
}

const countLines = () => (edited.lines = planArea.value.split("\n").length);

async function checkText() {
  const turn = ++edited.turn;
  const goesOn = (found) => {
    planState.textContent = found ? `${count(found, "bad line")} so far ..` : "Checking ..";
    return turn === edited.turn;
  };
  clearTimeout(edited.timer);
  if (formOf(planArea.value)) return showFaults({ faults: [], isAll: true });
  const ofPlan = async () => ({ faults: [], isAll: true, answer: await askOver(noLosses, "check", {}) });
  const found = await (isPlanText() ? ofPlan() : faultsOf(askHere, planArea.value, goesOn));
  if (found && turn === edited.turn) showFaults(found);
}

// Whether the text is that of the plan that is shown, and none that was refused.
const isPlanText = () => edited.given !== app.refused?.text && planArea.value === asInField(app.plan.text);

// A text without what no plan has and a field doesn't show: a byte order mark, and CR at the ends of lines.
const asInField = (text) => text.replace(/^\ufeff/, "").replace(/\r\n?/g, "\n");
const REPAIRED = " Here its lines end with LF, and it has no byte order mark.";

function showFaults({ faults, isAll, answer }) {
  edited.bad = new Set(faults.map((it) => it.line));
  planState.textContent = aboutText(faults, isAll, answer);
  planState.classList.toggle("bad", faults.length > 0);
  const isFirst = ({ reason }, place) => faults.findIndex((it) => it.reason === reason) === place;
  faultList.replaceChildren(...faults.map((it, place) => faultItem(it, isFirst(it, place))));
  useButton.disabled = resetButton.disabled = isPlanText();
  paintGutter();
}

function aboutText(faults, isAll, answer) {
  const form = formOf(planArea.value), repaired = /^\ufeff|\r/.test(edited.given) ? REPAIRED : "";
  if (form) return form;
  if (answer.status !== 0 && answer.status !== PLAN_STATUS) return messageOf(answer);
  const told = isAll ? count(faults.length, "bad line") : `The first ${faults.length} bad lines; there may be more`;
  if (faults.length) return `${told}: each adds nothing, so another may be bad because of it alone.${repaired}`;
  const whose = isPlanText() ? `This is the plan that is shown, ${app.plan.name}` : "No bad line";
  return `${whose}: ${answer.report.split("\n").slice(0, 4).join(", ")}.${repaired}`;
}

// A bad line, and the repair of its reason below the first of them.
function faultItem({ line, reason, text }, isFirst) {
  const shown = text.length > MOST_SHOWN ? `${text.slice(0, MOST_SHOWN)} ..` : text;
  const name = { class: "small", "aria-label": `Go to line ${line}, ${reason}` };
  const go = actButton(`line ${line}`, () => goToLine(line), name);
  const repair = isFirst && REPAIRS[reason] ? element("p", { class: "soft" }, `${reason}: ${REPAIRS[reason]}`) : "";
  return element("li", {}, go, element("b", {}, reason), element("code", {}, shown), repair);
}

// Opens the text in the page, for the same question.
async function useText() {
  const answer = await openPlan(edited.name, planArea.value, request?.texts);
  if (answer.status === 0) planArea.focus();
}

// Shows the plan's text, or the one that was refused, if there is another one than before.
function showPlanText() {
  const { name, text } = app.refused ?? app.plan;
  if (edited.isOld) showText(name, text);
}

planArea.oninput = () => {
  edited.turn++;
  clearTimeout(edited.timer);
  edited.timer = setTimeout(checkText, REST);
  useButton.disabled = resetButton.disabled = false;
  countLines();
  paintGutter();
};
planArea.onscroll = paintGutter;

const useButton = actButton("Use this text", useText, { class: "main", title: "Ctrl+Enter" });
const resetButton = actButton("Take changes back", () => showText(app.plan.name, app.plan.text));
const saveText = () => save(edited.name || "plan.txt", "text/plain", planArea.value);
const planButtons = element("div", { class: "acts" }, useButton, resetButton, actButton("Save text", saveText));
const planPanel = addPanel("plan", "Plan text", [planState, planField.part, planButtons, faultList], showPlanText);
planPanel.classList.add("wide");

listeners.push((what) => {
  if (what !== "plan" && what !== "refused") return;
  edited.isOld = true;
  if (planPanel.offsetParent) showPlanText();
});
