// The panel of sessions: the text of the one after the routes that are shown can be saved; another one can be checked, and
// the list goes on after it.

const sessionField = textField("A session text", { id: "sessionText", wrap: "off", rows: 8 }, () => checkSession());
const sessionState = statusLine();

// What a session text says of itself.
function aboutSession(text) {
  const { from, to, at } = requestIn(text), [, given] = /^emitted (\d+)$/m.exec(text) ?? [];
  return given && at ? `after ${count(Number(given), "route")} of ${titleOf(from)} → ${titleOf(to)} at ${at}` : "";
}

// Checks the text in the field, and tells in words whether it is right.
async function checkSession() {
  tellSession("Checking ..");
  const session = sessionField.area.value, answer = await askHere("verify", { session });
  if (answer.status > 1 || answer.status === UNANSWERED) return tellSession(messageOf(answer));
  if (answer.status === 1) return tellSession(`No: ${await whyNotSession(session)}.`);
  return tellSession(`Yes: this is the session ${aboutSession(session)}, its routes are the best ones, and none is left out.`);
}

// Why `verify` says no: what `next` says of the text.
async function whyNotSession(session) {
  const answer = await askHere("next", { session, count: "1" });
  if (answer.status === 0) return "its text is sound, but its routes aren't the best ones, or a part has another best route";
  return sessionFault(messageOf(answer));
}

function sessionFault(message) {
  const kind = message.split(" ").at(-1), lost = kind === "OtherPlan" ? withoutLost() : "";
  return SESSION_FAULTS[kind] ? `${message}: ${SESSION_FAULTS[kind]}${lost && ` than this one${lost}`}` : message;
}

async function goOnAfter() {
  const session = sessionField.area.value, answer = await goOn(session), isRight = answer.status === 0;
  tellSession(isRight ? `The routes that are shown are those ${aboutSession(session)}.` : sessionFault(messageOf(answer)));
}

async function saveSession() {
  const text = await sessionText();
  if (!text) return tellSession("There is no session: it needs a question, and routes from the first one on.");
  save(fileName("session"), "text/plain", text);
  return tellSession(`Saved: the session ${aboutSession(text)}.`);
}

const tellSession = (text) => (sessionState.textContent = text);

const openSession = fileButton("Open a file", sessionField.area, (_, text) => {
  sessionField.area.value = text;
  checkSession();
});

const whatItIs = "A session text keeps where a list of routes stands, so that it can go on later, here or by cgrlist next.";
const checkButton = actButton("Check", checkSession, { class: "main", title: "Ctrl+Enter" });

addPanel("session", "Session", [
  element("p", { class: "soft" }, whatItIs),
  element("div", { class: "acts" }, actButton("Save the session after these routes", saveSession)),
  sessionField.part,
  element("div", { class: "acts" }, checkButton, actButton("Go on after it", goOnAfter), openSession),
  sessionState,
]);
