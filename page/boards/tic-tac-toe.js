// Tic-tac-toe: the table's grid of nine cells, with names of their own and the line that wins.
import { describedGame } from "../table/described.js";

const PLACES = ["top left", "top", "top right", "left", "middle", "right", "bottom left", "bottom", "bottom right"];
const LINES = [[0, 1, 2], [3, 4, 5], [6, 7, 8], [0, 3, 6], [1, 4, 7], [2, 5, 8], [0, 4, 8], [2, 4, 6]];

const winning = ({ cells }) => LINES.find(([a, b, c]) => cells[a] !== null && cells[a] === cells[b] && cells[b] === cells[c]) ?? [];

const description = {
  game: "tic-tac-toe", seats: 2, about: "Mark a cell in turn. Three marks in a line win.",
  common: { cells: "[seat?; 3 by 3]" },
  moves: { clickCell: { args: ["cell: 0..8"], undoable: false } },
  show: { cells: { as: "grid", items: ["cross", "ring"], click: "clickCell(place)", label: "Board" } },
};
const hints = {
  title: "Tic-tac-toe", glyph: "✕",
  show: { cells: { board: "paper", value: "seat", names: PLACES, words: ["cross", "circle"], none: "free" } },
};

export default describedGame(description, hints, {
  say: ({ args }) => `marked ${PLACES[args[0]]}`,
  hint: () => "Choose a free cell.",
  against: () => "That cell is taken.",
  offers: ({ g }) => g.cells.flatMap((seat, at) => seat === null ? [["clickCell", [at]]] : []),
  marks: ({ g }) => ({ cells: winning(g) }),
});
