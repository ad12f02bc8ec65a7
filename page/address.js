// What the page's address says: which server, and which match. And the link to a match, also as a QR code.

const MATCH = /^\d{1,2}-[1-9]\d{0,19}$/;

/** The server: `?server=ws://HOST:PORT/`, or where the page itself came from. */
export function serverAddress({ search, protocol, host, pathname } = location) {
  const said = new URLSearchParams(search).get("server") ?? `${protocol === "https:" ? "wss:" : "ws:"}//${host}${pathname}`;
  // Two ways to write one address are one server, whose keys are kept once.
  try { return new URL(said).href; } catch { return said; }
}

/** The match that the address names, or null. */
export function matchNamed({ search } = location) {
  const said = new URLSearchParams(search).get("match");
  return said !== null && MATCH.test(said) ? said : null;
}

/** Whether actions may be guessed ahead: `?guess=no` says that they may not. */
export const mayGuess = ({ search } = location) => new URLSearchParams(search).get("guess") !== "no";

/** The address of a match, or of the lobby if the match is null. */
export function linkTo(match, { href } = location) {
  const link = new URL(href);
  const kept = ["server", "guess"].map((name) => [name, link.searchParams.get(name)]);
  link.search = link.hash = "";
  for (const [name, said] of kept) if (said !== null) link.searchParams.set(name, said);
  if (match !== null) link.searchParams.set("match", match);
  return link.href;
}

/** Whether a host's name means the machine itself, so that a link with it leads nobody else here. */
export const isLoopback = (hostname) => /^(localhost|.*\.localhost|127(\.\d+){3}|0\.0\.0\.0|\[::1?\])$/.test(hostname);

/** Whether others could not open the link to a match: its own host, or the server that it names, is the machine itself. */
export function leadsNobodyHere(link) {
  const { hostname, searchParams } = new URL(link);
  const server = searchParams.get("server");
  return isLoopback(hostname) || (server !== null && URL.canParse(server) && isLoopback(new URL(server).hostname));
}

// ---- QR codes, as ISO/IEC 18004 has them: byte mode, versions 1 to 10, level M, or L where M has no room.

// For each version: how many bytes in all, and then for a level how many bytes for correction a block has and how many blocks there are.
const TOTAL = [26, 44, 70, 100, 134, 172, 196, 242, 292, 346];
const LEVELS = [
  { bits: 0, correction: [10, 16, 26, 18, 24, 16, 18, 22, 22, 26], blocks: [1, 1, 1, 2, 2, 4, 4, 4, 5, 5] },
  { bits: 1, correction: [7, 10, 15, 20, 26, 18, 20, 24, 30, 18], blocks: [1, 1, 1, 1, 1, 2, 2, 2, 2, 4] },
];
// Where the middles of the small squares stand.
const MIDDLES = [[], [6, 18], [6, 22], [6, 26], [6, 30], [6, 34], [6, 22, 38], [6, 24, 42], [6, 26, 46], [6, 28, 50]];
const MASKS = [
  (x, y) => (x + y) % 2, (x, y) => y % 2, (x) => x % 3, (x, y) => (x + y) % 3,
  (x, y) => ((x / 3 | 0) + (y / 2 | 0)) % 2, (x, y) => (x * y) % 2 + (x * y) % 3,
  (x, y) => ((x * y) % 2 + (x * y) % 3) % 2, (x, y) => ((x + y) % 2 + (x * y) % 3) % 2,
];

// The field of 256 elements: its powers of 2, and the powers that they are.
const POWERS = [], LOGS = [];
for (let at = 0, power = 1; at < 255; at++, power = power << 1 ^ (power & 128 ? 0x11d : 0)) [POWERS[at], LOGS[power]] = [power, at];
const times = (a, b) => a && b ? POWERS[(LOGS[a] + LOGS[b]) % 255] : 0;

/** The bytes with which a block is corrected: what is left of it by the polynomial with the first powers of 2 as its roots. */
function corrected(block, count) {
  let roots = [1];
  for (let at = 0; at < count; at++) roots = [...roots, 0].map((one, place) => one ^ times(roots[place - 1] ?? 0, POWERS[at]));
  const left = [...block, ...Array(count).fill(0)];
  block.forEach((_, at) => {
    const first = left[at];
    roots.forEach((root, place) => { left[at + place] ^= times(root, first); });
  });
  return left.slice(block.length);
}

/** What is left of a number, moved to the left, by a polynomial of so many bits: the check of the format and of the version. */
function checked(number, polynomial, bits) {
  let left = number << bits;
  for (let at = 31 - Math.clz32(left); at >= bits; at--) if (left >> at & 1) left ^= polynomial << at - bits;
  return number << bits | left;
}

/** The bytes of a code: the text with its head, filled up, in blocks that take turns, and what corrects them. */
function codeBytes(text, version, { correction, blocks }) {
  const [each, count] = [correction[version - 1], blocks[version - 1]];
  const room = TOTAL[version - 1] - each * count;
  const bits = [[4, 4], [text.length, version < 10 ? 8 : 16], ...[...text].map((byte) => [byte, 8]), [0, 4]]
    .map(([value, width]) => value.toString(2).padStart(width, "0")).join("").slice(0, room * 8);
  const data = bits.padEnd(Math.ceil(bits.length / 8) * 8, "0").match(/.{8}/g).map((byte) => parseInt(byte, 2));
  for (let at = 0; data.length < room; at++) data.push(at % 2 ? 0x11 : 0xec);
  const parts = [], short = Math.floor(room / count), shorts = count - room % count;
  for (let at = 0; at < count; at++) parts.push(data.splice(0, short + (at >= shorts)));
  const inTurn = (all) => all.at(-1).flatMap((_, at) => all.filter((one) => at < one.length).map((one) => one[at]));
  return [...inTurn(parts), ...inTurn(parts.map((one) => corrected(one, each)))];
}

/** The squares of a version before anything is written, each dark, light, or null where the bytes come; and those of the format as false. */
function frame(version) {
  const size = version * 4 + 17;
  const squares = Array.from({ length: size }, () => Array(size).fill(null));
  const ring = (x, y, reach, dark) => {
    for (let down = -reach; down <= reach; down++) for (let right = -reach; right <= reach; right++) {
      if (squares[y + down]?.[x + right] !== undefined) squares[y + down][x + right] = dark(Math.max(Math.abs(down), Math.abs(right)));
    }
  };
  for (let at = 0; at < size; at++) squares[6][at] = squares[at][6] = at % 2 === 0;
  for (const [x, y] of [[3, 3], [size - 4, 3], [3, size - 4]]) ring(x, y, 4, (far) => far !== 2 && far !== 4);
  const middles = MIDDLES[version - 1], last = middles.at(-1);
  for (const y of middles) for (const x of middles) {
    if (!(x === 6 && y === 6 || x === 6 && y === last || x === last && y === 6)) ring(x, y, 2, (far) => far !== 1);
  }
  for (let at = 0; at < 9; at++) squares[8][at] ??= squares[at][8] ??= false;
  for (let at = 1; at < 9; at++) squares[8][size - at] ??= squares[size - at][8] ??= false;
  squares[size - 8][8] = true;
  if (version >= 7) {
    const said = checked(version, 0x1f25, 12);
    for (let at = 0; at < 18; at++) {
      const [long, across] = [Math.floor(at / 3), size - 11 + at % 3];
      squares[long][across] = squares[across][long] = Boolean(said >> at & 1);
    }
  }
  return squares;
}

/** Writes bits into the free squares, in columns of two from the right, up and down in turn, and turns over those that the mask names. */
function written(free, bytes, mask) {
  const size = free.length, squares = free.map((row) => [...row]);
  let at = 0;
  for (let right = size - 1, up = true; right > 0; right -= right === 8 ? 3 : 2, up = !up) {
    for (let step = 0; step < size; step++) for (const x of [right, right - 1]) {
      const y = up ? size - 1 - step : step;
      if (free[y][x] !== null) continue;
      const bit = Boolean(bytes[at >> 3] >> 7 - (at & 7) & 1);
      squares[y][x] = bit !== (MASKS[mask](x, y) === 0);
      at++;
    }
  }
  return squares;
}

/** Writes which level and which mask a code has, twice. */
function signed(squares, bits, mask) {
  const size = squares.length, said = checked(bits << 3 | mask, 0x537, 10) ^ 0x5412;
  for (let at = 0; at < 15; at++) {
    const dark = Boolean(said >> at & 1);
    squares[at < 6 ? at : at < 8 ? at + 1 : size - 15 + at][8] = dark;
    squares[8][at < 8 ? size - 1 - at : at === 8 ? 7 : 14 - at] = dark;
  }
  return squares;
}

/** How hard a code is to read: long runs, squares of one colour, what looks like a corner, and too much of one colour. */
function hardness(squares) {
  const size = squares.length;
  const lines = [...squares, ...squares.map((_, x) => squares.map((row) => row[x]))].map((line) => line.map(Number).join(""));
  let points = 0;
  for (const line of lines) {
    for (const [run] of line.matchAll(/0{5,}|1{5,}/g)) points += run.length - 2;
    points += 40 * [...line.matchAll(/(?=10111010000|00001011101)/g)].length;
  }
  for (let y = 1; y < size; y++) for (let x = 1; x < size; x++) {
    const dark = squares[y][x] + squares[y - 1][x] + squares[y][x - 1] + squares[y - 1][x - 1];
    if (dark % 4 === 0) points += 3;
  }
  const share = squares.flat().filter(Boolean).length / size ** 2;
  return points + 10 * Math.floor(Math.abs(share * 100 - 50) / 5);
}

/** The QR code of a text as rows of squares, true for the dark ones, or null if the text is too long. A mask can be named, from 0 to 7. */
export function qrCode(text, mask = null) {
  const bytes = new TextEncoder().encode(text);
  for (const level of LEVELS) for (let version = 1; version <= 10; version++) {
    const room = TOTAL[version - 1] - level.correction[version - 1] * level.blocks[version - 1];
    if (bytes.length > room - (version < 10 ? 2 : 3)) continue;
    const free = frame(version), all = codeBytes(bytes, version, level);
    const codes = (mask === null ? [...MASKS.keys()] : [mask]).map((one) => signed(written(free, all, one), level.bits, one));
    return codes.reduce((best, one) => hardness(one) < hardness(best) ? one : best);
  }
  return null;
}
