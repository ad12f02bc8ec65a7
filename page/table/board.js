// Boards: a grid, one grid for each seat, a layout of places, or a score sheet. Each place is a button with a name.
import { make } from "./make.js";
import { look } from "./pieces.js";

/** The rows and columns of a part, whether it has a board for each seat, and whether each row is a seat's. */
function sizes({ hint, type }, seats) {
  const bySeat = hint.boards === "seats", rowSeat = hint.rows === "seats" || (type.bySeats && !bySeat && !hint.rows);
  const columns = hint.columns ?? type.columns ?? (type.bySeats ? 1 : Math.ceil(Math.sqrt(type.count)));
  const rows = rowSeat ? seats : Number(hint.rows ?? type.rows ?? Math.ceil(type.count / columns));
  return { rows, columns, bySeat, rowSeat };
}

/** Draws a part as boards, those of which something can be chosen first. `table` is what draws the parts. */
export function drawGrid(part, value, table) {
  const { hint } = part, { rows, columns, bySeat, rowSeat } = sizes(part, table.seats);
  const layers = table.parts.filter((one) => one.hint.on === part.key);
  // A layout has a place for each item, and no more.
  const laid = hint.layout !== undefined;
  const boards = Array.from({ length: bySeat ? table.seats : 1 }, (_, board) => {
    const own = !bySeat || board === table.seat;
    const cells = Array.from({ length: laid ? part.type.count : rows * columns }, (_, place) => {
      const row = Math.floor(place / columns), column = place % columns, at = board * rows * columns + place;
      // A layer of the viewer's own lies on the viewer's board.
      const on = layers.filter((one) => own || !one.mine).map((layer) => ({ layer, value: table.read(layer)?.[layer.mine ? place : at] }));
      const mine = bySeat ? own !== (hint.where === "others") : !rowSeat || row === table.seat;
      const clicks = [...mine ? part.clicks : [], ...on.filter(() => own).flatMap(({ layer }) => layer.clicks)];
      return { part, place, row, column, at, item: value?.[at], on, clicks, seat: rowSeat ? row : null, whose: bySeat ? `${table.name(board)}: ` : "" };
    });
    return { board, own, part, rows, columns, bySeat, cells: cells.map((cell) => ({ ...cell, can: table.can(part, cell) })) };
  });
  const active = boards.filter(({ cells }) => cells.some(({ can }) => can));
  const main = active.length ? active : boards.filter(({ own }) => !bySeat || own !== (hint.where === "others"));
  return [...boards].sort((a, b) => main.includes(b) - main.includes(a)).map((one) => drawBoard(one, main.includes(one), table));
}

function drawBoard({ board, own, part, rows, columns, bySeat, cells }, main, table) {
  const { hint } = part, kind = hint.board ?? "plain", label = bySeat ? `${table.name(board)}: ${part.label}` : part.label;
  if (kind === "sheet") return drawSheet({ part, rows, columns, cells }, table);
  const laid = hint.layout?.map((one) => one.split(" ")) ?? null;
  const drops = part.clicks.length > 0 && part.clicks.every(({ names }) => names.join() === "column") && cells.every(({ seat }) => seat === null);
  const lines = laid ? layLines(laid, part, table) : gridLines(rows, columns, part, table);
  const drawn = cells.map((cell) => drawCell(cell, kind, table));
  lines.forEach((line, row) => line.forEach((place, column) => {
    if (place !== null) [drawn[place].dataset.row, drawn[place].dataset.column] = [row, column];
  }));
  const frame = make("div", {
    "class": ["grid", kind, laid && "laid", main ? "main" : "small"], "role": "group", "aria-label": label, "data-keys": part.key,
    "vars": { r: lines.length, c: lines[0].length },
  });
  if (laid) {
    const areas = (all) => all.map((line) => `"${line.map((place) => place === null ? "." : `p${place}`).join(" ")}"`).join(" ");
    frame.style.setProperty("--areas", areas(lines));
    // On a phone a long one stands upright.
    frame.style.setProperty("--upright", areas(lines[0].map((_, at) => lines.map((line) => line[at]).reverse())));
    drawn.forEach((one, place) => { one.style.gridArea = `p${place}`; });
    frame.append(...drawn);
  } else {
    if (drops && table.seat !== null) frame.append(drawHeads(lines[0], cells, part, table));
    lines.forEach((line, at) => frame.append(make("div", { class: "line", vars: kind === "hex" ? { shift: at } : {} }, line.map((place) => drawn[place]))));
  }
  const words = own ? hint.own ?? `Your ${part.label.toLowerCase()}` : `${table.name(board)}: ${part.label.toLowerCase()}`;
  return make("figure", { class: ["framed", main ? "main" : "small"] }, bySeat ? make("figcaption", {}, words) : null, frame);
}

/** The places of a grid as they are drawn. With `flip` row 0 is the lowest, and with `turn` the second of two seats sees it from the other side. */
function gridLines(rows, columns, { hint }, { seat }) {
  const turned = Boolean(hint.turn) && seat === 1;
  const lines = Array.from({ length: rows }, (_, row) => Array.from({ length: columns }, (_, column) => row * columns + column));
  if (Boolean(hint.flip) !== turned) lines.reverse();
  return turned ? lines.map((line) => line.reverse()) : lines;
}

/** The places of a layout, a text for each line, in which a dot is a gap. A place that stands there twice is large. */
function layLines(laid, { hint }, { seat }) {
  const lines = laid.map((line) => line.map((one) => one === "." ? null : Number(one)));
  return hint.turn && seat === 1 ? lines.reverse().map((line) => line.reverse()) : lines;
}

/** Buttons above the columns, where a column is all that a click says. */
function drawHeads(line, cells, part, table) {
  const shown = () => part.hint.value === "seat" ? look(part.hint, table.seat, part.least).node : make("span", { "aria-hidden": "true" }, "↓");
  return make("div", { class: "line heads" }, line.map((place, at) => {
    const cell = cells[place];
    return make("button", {
      "type": "button", "class": ["head", cell.can && "can"], "data-key": `${part.key}:head:${cell.column}`, "data-row": -1, "data-column": at,
      "aria-label": `column ${cell.column + 1}`, "aria-disabled": String(!cell.can), "onclick": () => table.click(part, cell),
    }, shown());
  }));
}

function drawCell(cell, kind, table) {
  const { part } = cell, { hint } = part;
  const seen = look(hint, cell.item, part.least);
  const layers = cell.on.map(({ layer, value }) => ({ layer, seen: look(layer.hint, value, layer.least) })).filter(({ seen: one }) => one.kind !== "none");
  const grounds = layers.filter(({ layer }) => layer.as === "ground").map(({ seen: one }) => make("span", { class: "ground" }, one.node));
  const tints = layers.filter(({ layer }) => layer.as === "tint" || layer.as === "edge").map(({ layer, seen: one }) => `${layer.as}-${one.tint}`);
  const last = table.changed(part, cell.at) || cell.on.some(({ layer }) => table.changed(layer, layer.mine ? cell.place : cell.at));
  const aimed = table.aimed(part, cell), chosen = table.chosen(part, cell), marks = table.marks(part, cell.at);
  const stands = seen.kind === "none" ? hint.none ?? "empty" : seen.words, name = hint.names?.[cell.place];
  const words = [name ? `${name}: ${stands}` : `${cell.whose}row ${cell.row + 1}, column ${cell.column + 1}, ${stands}`,
    ...layers.map(({ layer, seen: one }) => `${layer.label}: ${one.words}`), ...marks.words];
  const more = [chosen && "chosen", aimed && "a place to go to", last && "of the last move"].filter(Boolean);
  const classes = ["cell", cell.can && "can", last && "last", seen.kind === "none" && "empty", tints, chosen && "chosen", aimed && "aim", marks.classes,
    kind === "checks" && (cell.row + cell.column) % 2 === 0 && "dark"];
  const properties = { "class": classes, "aria-label": words.filter(Boolean).join(", "), "aria-description": more.join(", ") || null };
  if (!cell.clicks.length && !aimed) return make("div", { ...properties, role: "img" }, grounds, seen.node);
  return make("button", {
    ...properties, "type": "button", "data-key": `${part.key}:${cell.at}`, "aria-disabled": String(!cell.can && !aimed),
    "onclick": () => table.click(part, cell),
  }, grounds, seen.node);
}

/** A score sheet: the columns of the list are its lines, and each seat has a column of its own. */
function drawSheet({ part, rows, columns, cells }, table) {
  const names = part.hint.names ?? [];
  const lines = Array.from({ length: columns }, (_, column) => {
    const row = cells.filter((one) => one.column === column), own = row.find((one) => one.seat === table.seat), name = names[column] ?? String(column + 1);
    const shown = ({ item, can }) => item !== null ? String(item) : can ? "+" : "·";
    const classes = (cell) => ["score", cell.seat === table.seat && "own", table.changed(part, cell.at) && "last"];
    const scores = row.map((cell) => make("span", { class: classes(cell) }, shown(cell)));
    const words = `${name}: ${row.map((cell) => `${table.name(cell.seat)} ${cell.item ?? "open"}`).join(", ")}`;
    const inside = [make("span", { class: "title" }, name), scores];
    if (!own?.can) return make("div", { "class": "entry", "role": "img", "aria-label": words }, inside);
    return make("button", {
      "type": "button", "class": "entry can", "aria-label": words, "data-key": `${part.key}:${column}`, "data-row": column, "data-column": 0,
      "onclick": () => table.click(part, own),
    }, inside);
  });
  const heads = () => make("div", { "class": "entry heads", "aria-hidden": "true" }, make("span", { class: "title" }),
    Array.from({ length: rows }, (_, seat) => make("span", { class: "score" }, table.badge(seat))));
  const half = Math.ceil(columns / 2), halves = columns > 8 ? [lines.slice(0, half), lines.slice(half)] : [lines];
  return make("div", { "class": "sheet", "role": "group", "aria-label": part.label, "data-keys": part.key, "vars": { seats: rows } },
    halves.map((some) => make("div", { class: "half" }, heads(), some)));
}
