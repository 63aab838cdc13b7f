// Routes on the canvas: waits, hops, turns, and deliveries.

const DASHES = look.dashes;
let traced = []; // the pieces of routes that were drawn, for the mouse

// The line of the second at which the bundle is at the source.
function paintStart(bottom) {
  if (!request) return;
  const x = Math.round(xOf(startSecond())) + 0.5;
  paper.strokeStyle = isStarting() ? ink.accent : ink.soft;
  paper.lineWidth = 1;
  paper.setLineDash([2, 3]);
  strokeLine([x, AXIS], [x, bottom]);
  paper.setLineDash([]);
}

function paintRoutes(top) {
  traced = [];
  const order = (one, other) => isFaint(other) - isFaint(one) || other.place - one.place;
  const drawn = drawnRoutes().sort(order).map((route) => [route, piecesOf(route, top)]);
  shareTurns(drawn.flatMap(([, pieces]) => pieces.filter((piece) => piece.from)));
  for (const [route, pieces] of drawn) paintRoute(route, pieces);
}

// The hops of a route whose links have rows, each with where it lies, and from where and when the route comes.
function piecesOf(route, top) {
  let from = null, since = startOf(route); // the end of the hop before, if it has a row
  return route.hops.flatMap((hop) => {
    const place = hopPlace(route, hop, top), piece = { route, hop, from, since, ...place };
    from = place && { x: place.arrive, y: place.y };
    since = hop.arrive;
    return place ? [piece] : [];
  });
}

const THIN = 1.5; // lines that are less apart hide each other
const DASH = 5; // of a route where several change rows at one place

// Of routes that change rows at one place, each has a dash of the line in turn.
function shareTurns(pieces) {
  const overlap = (one, other) => lowest(one) < highest(other) && lowest(other) < highest(one);
  const meets = (one, other) => Math.abs(one.from.x - other.from.x) < THIN && overlap(one, other);
  for (const [place, piece] of pieces.entries()) {
    const taken = new Set(pieces.slice(0, place).filter((other) => meets(other, piece)).map((other) => other.share));
    piece.share = 0;
    while (taken.has(piece.share)) piece.share++;
  }
  for (const piece of pieces) piece.shares = 1 + Math.max(...pieces.filter((other) => meets(other, piece)).map((it) => it.share));
  for (const piece of pieces) piece.shares = Math.max(...pieces.filter((other) => meets(other, piece)).map((it) => it.shares));
}

const lowest = ({ from, y }) => Math.min(from.y, y);
const highest = ({ from, y }) => Math.max(from.y, y);

// A thick line for each hop, a thin one for the wait before it, and a dot with the rank at the delivery.
function paintRoute(route, pieces) {
  const colour = colourOf(route);
  paper.strokeStyle = paper.fillStyle = colour;
  paper.lineCap = paper.lineJoin = "round";
  for (const piece of pieces) {
    paintWait(piece);
    paintHop(piece);
  }
  const last = pieces.at(-1);
  if (last?.hop === route.hops.at(-1)) paintDelivery(route, { x: last.arrive, y: last.y }, colour);
}

function hopPlace(route, hop, top) {
  const row = rows.of.get(linkOf[hop.contact]), lane = row && rows.lanes.get(row.link).get(route);
  if (!row) return null;
  const y = top + row.top + row.bars + lane * LANE + LANE / 2 - 3, send = xOf(hop.send);
  return { y, send, arrive: Math.max(xOf(hop.arrive), send + 0.1) };
}

function paintWait(piece) {
  const { route, hop, from, since, y, send } = piece, start = from ? from.x : xOf(since);
  if (from) paintTurn(piece);
  if (!from && hop.send <= since) return;
  paper.lineWidth = isFaint(route) ? 1.2 : 1.6;
  paper.setLineDash(dashesOf(route));
  strokeLine([start, y], [send, y]);
  paper.setLineDash([]);
  traced.push(tracedPiece(piece, start, send, true));
}

const dashesOf = (route) => DASHES[(route.place % HUES) % DASHES.length];

// From the lane of the hop before to that of this one, where the bundle arrives.
function paintTurn(piece) {
  const { route, from, y, share, shares } = piece;
  paper.lineWidth = isFaint(route) ? 1.2 : 1.6;
  paper.lineCap = shares > 1 ? "butt" : "round";
  paper.setLineDash(shares > 1 ? [DASH, DASH * (shares - 1)] : dashesOf(route));
  paper.lineDashOffset = shares > 1 ? lowest(piece) - DASH * share : 0;
  strokeLine([from.x, lowest(piece)], [from.x, highest(piece)]);
  paper.lineDashOffset = 0;
  paper.lineCap = "round";
  traced.push({ ...tracedPiece(piece, from.x, from.x, true), low: lowest(piece), high: highest(piece) });
}

function paintHop(piece) {
  paper.lineWidth = isFaint(piece.route) ? 3.5 : 5;
  strokeLine([piece.send, piece.y], [piece.arrive, piece.y]);
  traced.push(tracedPiece(piece, piece.send, piece.arrive, false));
}

const tracedPiece = ({ route, hop, y }, left, right, isWait) => ({ route, hop, left, right, low: y, high: y, isWait });

function paintDelivery(route, { x, y }, colour) {
  paper.beginPath();
  paper.arc(x, y, isFaint(route) ? 3.5 : 4.5, 0, 7);
  paper.fill();
  useFont(BOLD);
  writeOver(route.label, x + 9, y + 0.5, colour, ink.back);
}
