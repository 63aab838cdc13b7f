// A link to the question, which the address keeps if it isn't the one with which the file opens. It has no plan: where that
// isn't the file's, its digest tells so.

const lineNow = () => (request ? lineOf(request.texts, request.at) : "");
const lineAtFirst = () => (data.request ? lineOf(data.request, secondOf(data.request.at)) : "");

// What the address keeps besides what is chosen.
function linkState() {
  const plan = app.plan.text === data.plan ? {} : { plan: app.plan.digest };
  return lineNow() && lineNow() !== lineAtFirst() ? { ...plan, ask: lineNow() } : plan;
}

// Asks what an address asks, over the plan that is shown.
async function recallLink(state) {
  const ask = state.get("ask") ?? lineAtFirst(), plan = state.get("plan") ?? app.plan.digest;
  if (plan !== app.plan.digest) tell("This link is of another plan than this page has: open that plan, too.");
  const [from, to, at, marginPpm, maxHops, avoid] = ask.split(" ");
  if (ask && ask !== lineNow()) await setRequest({ from, to, at, marginPpm, maxHops, avoid });
}

// The field that shows the link, and the button that copies it.
function linkParts() {
  const about = { id: "link", readonly: "", "aria-label": "Link to this question" }, field = element("input", about);
  field.onfocus = () => field.select();
  return [field, actButton("Copy", copyLink)];
}

const showLink = () => (byId("link").value = location.href);

function copyLink() {
  byId("link").select();
  document.execCommand("copy"); // pages from files have no other way in each browser
  tell("The link is copied.");
}
