// What the browser keeps: the key of the seat in each match of each server, the games of each, the name that was last used, and whether one wants to be
// told of one's turn.
// If the browser keeps nothing, as in some private windows, a seat lasts as long as the page.

const memory = new Map();

function read(at) {
  try { return JSON.parse(localStorage.getItem(at)); } catch { return memory.get(at) ?? null; }
}

function write(at, value) {
  memory.set(at, value);
  try { localStorage.setItem(at, JSON.stringify(value)); } catch { /* it is kept in memory alone */ }
}

const place = (address, match) => `seat ${match} at ${address}`;

/** The seat and its key that are kept for a match, as `{ seat, key }`, or null. */
export const seatIn = (address, match) => read(place(address, match));
export const keepSeat = (address, match, seat, key) => write(place(address, match), { seat, key });

export function forgetSeat(address, match) {
  memory.delete(place(address, match));
  try { localStorage.removeItem(place(address, match)); } catch { /* nothing is kept */ }
}

/** The games that a server had when it was last asked, or null. */
export const keptGames = (address) => read(`games of ${address}`);
export const keepGames = (address, names) => write(`games of ${address}`, names);

export const lastName = () => read("name") ?? "";
export const keepName = (name) => write("name", name);

/** Whether one wants to be told when it is one's turn, or null if that wasn't asked yet. */
export const keptBell = () => read("bell");
export const keepBell = (on) => write("bell", on);
