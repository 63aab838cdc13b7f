// Pictures of their own, as SVGs: what is saved, and the sheets of a print.

// Rows as an SVG: those that lie from a place on, in a height.
function svgText(scroll, height) {
  const before = size.height;
  [paper, size.height] = [new SvgPaper(size.width, height), height];
  paint(scroll);
  const text = paper.text(app.plan.name);
  [paper, size.height] = [screen, before];
  return text;
}

const SHEET = { width: 1040, first: 590, height: 690 }; // of a print; the first one has the heading and the legend

// The sheets of a print, as SVGs: all rows, and the axis on each.
function sheets() {
  fitTo(SHEET.width, SHEET.first);
  const cuts = [];
  for (const row of rows.list) {
    const most = (cuts.length > 1 ? SHEET.height : SHEET.first) - AXIS;
    if (!cuts.length || row.top + row.height - cuts.at(-1) > most) cuts.push(row.top);
  }
  return cuts.map((top, place) => svgText(top, AXIS + (cuts[place + 1] ?? rows.height) - top));
}

function makeSheets() {
  const parser = new DOMParser();
  const made = sheets().map((text) => parser.parseFromString(text, "image/svg+xml").documentElement);
  const hidden = links.length - rows.list.length;
  byId("sheets").replaceChildren(...made, hidden ? `${count(hidden, "more link")} of the plan not shown` : "");
}
