// The panels beside the picture, each below a tab, and what they share: fields with labels, and files that are opened or dropped.

const panels = new Map(); // by the names of their tabs: each with what is done when it is opened

// Puts parts beside the picture as a panel with a tab.
function addPanel(id, title, parts, opened) {
  const about = { id: `panel-${id}`, class: "panel", role: "tabpanel", "aria-labelledby": `tab-${id}` };
  const panel = element("div", { ...about, hidden: true }, ...parts);
  const tab = { id: `tab-${id}`, role: "tab", "aria-controls": panel.id, "aria-selected": false, tabindex: -1 };
  byId("tabs").append(element("button", { ...tab, onclick: () => showPanel(id) }, title));
  byId("panels").append(panel);
  panels.set(id, { panel, opened });
  return panel;
}

function showPanel(id) {
  for (const [other, { panel }] of panels) {
    const tab = byId(`tab-${other}`);
    panel.hidden = other !== id;
    tab.setAttribute("aria-selected", other === id);
    tab.tabIndex = other === id ? 0 : -1;
  }
  byId("side").classList.toggle("wide", panels.get(id).panel.classList.contains("wide"));
  panels.get(id).opened?.();
}

// Arrows go from tab to tab.
byId("tabs").onkeydown = (event) => {
  const step = { ArrowLeft: -1, ArrowRight: 1 }[event.key], tabs = [...byId("tabs").children];
  if (!step) return;
  event.preventDefault();
  const next = tabs.at((tabs.indexOf(event.target) + step) % tabs.length);
  next.click();
  next.focus();
};

// ---- Parts of panels ----

// A field of several lines with its label, and what stands beside its lines. Ctrl and Enter act.
function textField(label, about, act, beside = "") {
  const onkeydown = (event) => {
    if (event.key === "Enter" && (event.ctrlKey || event.metaKey)) act();
  };
  const area = element("textarea", { spellcheck: "false", autocomplete: "off", rows: 5, ...about, onkeydown });
  const lines = element("span", { class: "lines" }, beside, area);
  return { area, part: element("label", { class: "field" }, element("span", {}, label), lines) };
}

// A button that opens a file, which can be dropped on a part, too; its name and text are handed on.
function fileButton(label, part, take) {
  const taken = async (files) => files.length && take(files[0].name, await files[0].text());
  const input = element("input", { type: "file", hidden: true, "aria-label": label });
  input.onchange = async () => {
    await taken(input.files);
    input.value = ""; // so that the same file can be opened again
  };
  part.ondragover = part.ondrop = (event) => {
    if (!hasFile(event)) return;
    event.preventDefault();
    event.stopPropagation(); // elsewhere on the page a file is a plan
    byId("drop").hidden = true;
    if (event.type === "drop") taken(event.dataTransfer.files);
  };
  return element("span", {}, actButton(label, () => input.click()), input);
}

const actButton = (label, onclick, about = {}) => element("button", { type: "button", ...about, onclick }, label);
const inLabel = (before, field, after = "") => element("label", {}, before, field, after);
const statusLine = () => element("p", { class: "status", role: "status" });

// What the plan is without, in words.
function withoutLost() {
  const { contacts, nodes } = lossesNow(), told = (what, all) => (all.length ? [`${what} ${all.join(", ")}`] : []);
  const lost = [...told("contact", contacts), ...told("node", nodes)];
  return lost.length ? `, over the plan without ${lost.join(" and ")}` : "";
}

addPanel("routes", "Routes", [byId("listing")]);
