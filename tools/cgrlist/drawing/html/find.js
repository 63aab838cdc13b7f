// Finding a contact by its number, a node by its number or name, a link by its nodes, as `31 > 22`, and a time.

const MOST_FOUND = 12;
const field = byId("find");
const list = byId("found");
const finding = { hits: [], place: 0 };

function find(text) {
  const wanted = text.trim().toLowerCase();
  finding.hits = wanted ? hitsFor(wanted).slice(0, MOST_FOUND) : [];
  finding.place = 0;
  listHits(Boolean(wanted));
}

// Nodes that match exactly come first, then the contact with the number, then other nodes.
function hitsFor(wanted) {
  const others = [...linksFor(wanted), ...timesFor(wanted)];
  if (others.length) return others;
  const nodes = known.nodes.map((_, node) => ({ node, match: matchOf(node, wanted) })).filter((hit) => hit.match);
  const contact = contactWith.get(Number(wanted.replace(/^(contact|#)\s*/, "")));
  const contacts = contact === undefined ? [] : [{ contact }];
  return [...nodes.filter((hit) => hit.match === 2), ...contacts, ...nodes.filter((hit) => hit.match === 1)];
}

// 2 if a node is just the wanted one, 1 if it is like it, 0 if it isn't.
function matchOf(node, wanted) {
  const name = (names.get(known.nodes[node]) ?? "").toLowerCase();
  if (known.nodes[node] === wanted || name === wanted) return 2;
  return name.includes(wanted) || (wanted.length > 1 && known.nodes[node].startsWith(wanted)) ? 1 : 0;
}

// Links from a node to a node; each may be left out.
function linksFor(wanted) {
  const ends = wanted.split(/\s*(?:->|>|→)\s*/);
  if (ends.length !== 2) return [];
  const best = (node, text) => (text ? matchOf(node, text) : 1);
  const hits = links.map(({ from, to }, link) => ({ link, match: Math.min(best(from, ends[0]), best(to, ends[1])) }));
  return hits.filter((hit) => hit.match).sort((one, other) => other.match - one.match || one.link - other.link);
}

// A time of the plan; without a day, that of each day, the nearest ones first.
function timesFor(wanted) {
  const second = secondOfText(wanted), [isClock, ...clock] = /^(\d\d?):(\d\d)(?::(\d\d))?z?$/.exec(wanted) ?? [];
  if (second !== undefined || !isClock) return second === undefined ? [] : [{ second }];
  const [hours, minutes, seconds] = clock.map((part) => Number(part ?? 0)), ofDay = hours * 3600 + minutes * 60 + seconds;
  const first = Math.floor(earliest / DAY), last = Math.floor(latest / DAY);
  const middle = (view.first + view.last) / 2, away = (hit) => Math.abs(hit.second - middle);
  const days = Array.from({ length: last - first + 1 }, (_, place) => first + place);
  const hits = days.map((it) => ({ second: it * DAY + ofDay }));
  return hits.filter(({ second }) => earliest <= second && second <= latest).sort((one, other) => away(one) - away(other));
}

function aboutHit(hit) {
  if (hit.second !== undefined) return [timeText(hit.second), "show this time"];
  if (hit.link !== undefined) return [linkName(hit.link), count(contactsOf(hit.link).length, "contact")];
  if (hit.contact === undefined) {
    const linked = links.filter((link) => endsAt(link, hit.node)).length;
    return [`Node ${fullName(hit.node)}`, `show its ${count(linked, "link")}`];
  }
  const { from, to } = links[linkOf[hit.contact]], start = timeText(known.start[hit.contact]);
  return [`Contact ${known.number[hit.contact]}`, `${fullName(from)} → ${fullName(to)}, ${start}`];
}

function listHits(isOpen) {
  const option = (hit, place) => {
    const [head, more] = aboutHit(hit);
    const about = { role: "option", id: `hit${place}`, "aria-selected": place === finding.place };
    const onmousedown = (event) => {
      event.preventDefault(); // the field keeps the focus until the hit is taken
      takeHit(hit);
    };
    return element("li", { ...about, onmousedown }, head, element("small", {}, more));
  };
  const none = element("li", { role: "option", "aria-selected": false }, "Nothing found");
  list.replaceChildren(...(finding.hits.length ? finding.hits.map(option) : [none]));
  list.hidden = !isOpen;
  field.setAttribute("aria-expanded", isOpen);
  field.setAttribute("aria-activedescendant", finding.hits.length ? `hit${finding.place}` : "");
}

function takeHit(hit) {
  closeFound();
  chart.focus({ preventScroll: true });
  if (hit.node !== undefined) return showLinks(shows.links, hit.node);
  if (hit.second !== undefined) return showSecond(hit.second);
  goTo(hit.link === undefined ? hit.contact : nearestOf(hit.link));
}

function showSecond(second) {
  const half = (view.last - view.first) / 2;
  flyTo(second - half, second + half);
}

// The contact of a link that is nearest to the middle of the view.
function nearestOf(link) {
  const middle = (view.first + view.last) / 2;
  const away = (contact) => Math.max(known.start[contact] - middle, middle - ends[contact], 0);
  return contactsOf(link).reduce((best, other) => (away(other) < away(best) ? other : best));
}

function closeFound() {
  field.value = "";
  find("");
}

function moveHit(step) {
  const { hits, place } = finding;
  finding.place = (place + step + hits.length) % hits.length;
  listHits(true);
}

field.oninput = () => find(field.value);
field.onblur = () => {
  list.hidden = true;
};
field.onkeydown = (event) => {
  if (event.key === "Escape") {
    event.stopPropagation();
    closeFound();
    chart.focus({ preventScroll: true });
  }
  if (!finding.hits.length) return;
  const step = { ArrowDown: 1, ArrowUp: -1 }[event.key];
  if (event.key === "Enter") takeHit(finding.hits[finding.place]);
  else if (step) {
    event.preventDefault();
    moveHit(step);
  }
};
