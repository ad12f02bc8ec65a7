// Plays random matches of Reversi, Go and Hearts in plain JavaScript, by the rules of games/, and prints how many acts a second it makes:
// the row beside which `board_server check games/NAME.toml --play N` is put. At each step one of all moves that are allowed is made, each as
// likely as any other, as the program does it. Nothing is logged, hidden, checked or undone here.
//   node bench/random_games.js [SECONDS [GAME ..]]
'use strict';

// Numbers below a bound, by a small generator with a seed.
class Dice {
  constructor(seed) {
    this.state = seed >>> 0;
  }

  below(bound) {
    this.state = (this.state + 0x6d2b79f5) >>> 0;
    let word = this.state;
    word = Math.imul(word ^ (word >>> 15), word | 1);
    word ^= word + Math.imul(word ^ (word >>> 7), word | 61);
    return Math.floor((((word ^ (word >>> 14)) >>> 0) / 4294967296) * bound);
  }

  shuffle(items) {
    for (let place = items.length - 1; place > 0; place -= 1) {
      const other = this.below(place + 1);
      [items[place], items[other]] = [items[other], items[place]];
    }
  }
}

const FREE = -1;
const DRAWN = -1;

// The neighbours of each point of a square board, by the steps of rows and columns.
function neighbours(size, steps) {
  const found = [];
  for (let point = 0; point < size * size; point += 1) {
    const row = Math.floor(point / size);
    const column = point % size;
    found.push(
      steps
        .map(([down, right]) => [row + down, column + right])
        .filter(([r, c]) => r >= 0 && r < size && c >= 0 && c < size)
        .map(([r, c]) => size * r + c),
    );
  }
  return found;
}

// The points from each point in each of eight directions up to the edge.
function rays(size) {
  const found = [];
  for (let point = 0; point < size * size; point += 1) {
    const each = [];
    for (const [down, right] of [[0, 1], [1, 1], [1, 0], [1, -1], [0, -1], [-1, -1], [-1, 0], [-1, 1]]) {
      const ray = [];
      let row = Math.floor(point / size) + down;
      let column = (point % size) + right;
      while (row >= 0 && row < size && column >= 0 && column < size) {
        ray.push(size * row + column);
        row += down;
        column += right;
      }
      each.push(ray);
    }
    found.push(each);
  }
  return found;
}

const RAYS = rays(8);

class Reversi {
  constructor() {
    this.cells = new Int8Array(64).fill(FREE);
    this.cells[27] = this.cells[36] = 1;
    this.cells[28] = this.cells[35] = 0;
    this.seat = 0;
    this.open = this.allowed(0);
  }

  // How many discs a disc of a seat turns along a ray.
  turned(seat, ray) {
    let count = 0;
    while (count < ray.length && this.cells[ray[count]] === 1 - seat) count += 1;
    return count < ray.length && this.cells[ray[count]] === seat ? count : 0;
  }

  allowed(seat) {
    const found = [];
    for (let point = 0; point < 64; point += 1) {
      if (this.cells[point] === FREE && RAYS[point].some(ray => this.turned(seat, ray) > 0)) found.push(point);
    }
    return found;
  }

  moves() {
    return this.open;
  }

  play(point) {
    const seat = this.seat;
    for (const ray of RAYS[point]) {
      for (let count = this.turned(seat, ray); count > 0; count -= 1) this.cells[ray[count - 1]] = seat;
    }
    this.cells[point] = seat;
    this.open = this.allowed(1 - seat);
    if (this.open.length > 0) {
      this.seat = 1 - seat;
    } else {
      this.open = this.allowed(seat);
    }
  }

  // The winner once the match is over.
  outcome() {
    if (this.open.length > 0) return null;
    const [zero, one] = [0, 1].map(seat => this.cells.filter(cell => cell === seat).length);
    return zero === one ? DRAWN : zero > one ? 0 : 1;
  }
}

const SIZE = 9;
const POINTS = SIZE * SIZE;
const PASS = POINTS;
const BESIDE = neighbours(SIZE, [[-1, 0], [0, -1], [0, 1], [1, 0]]);
const EXTRA = 6;

class Go {
  constructor() {
    this.cells = new Int8Array(POINTS).fill(FREE);
    this.free = new Int16Array(POINTS);
    this.seat = 0;
    this.ko = null;
    this.passes = 0;
  }

  // Counts the liberties of each chain.
  measure() {
    const seen = new Uint8Array(POINTS);
    for (let first = 0; first < POINTS; first += 1) {
      if (this.cells[first] === FREE) {
        this.free[first] = 0;
      } else if (!seen[first]) {
        seen[first] = 1;
        const chain = [first];
        const liberties = new Set();
        for (let place = 0; place < chain.length; place += 1) {
          for (const point of BESIDE[chain[place]]) {
            if (this.cells[point] === FREE) {
              liberties.add(point);
            } else if (this.cells[point] === this.cells[first] && !seen[point]) {
              seen[point] = 1;
              chain.push(point);
            }
          }
        }
        for (const point of chain) this.free[point] = liberties.size;
      }
    }
  }

  // Whether a stone of the mover would have a liberty, join a chain that keeps one, or take a chain.
  lives(point) {
    return BESIDE[point].some(
      other => this.cells[other] === FREE || (this.cells[other] === this.seat ? this.free[other] > 1 : this.free[other] === 1),
    );
  }

  moves() {
    const found = [PASS];
    for (let point = 0; point < POINTS; point += 1) {
      if (this.cells[point] === FREE && this.ko !== point && this.lives(point)) found.push(point);
    }
    return found;
  }

  play(point) {
    this.ko = null;
    if (point === PASS) {
      this.passes += 1;
    } else {
      this.place(point);
    }
    this.seat = 1 - this.seat;
  }

  place(point) {
    this.passes = 0;
    this.cells[point] = this.seat;
    this.measure();
    const taken = [];
    for (let other = 0; other < POINTS; other += 1) {
      if (this.cells[other] === 1 - this.seat && this.free[other] === 0) taken.push(other);
    }
    for (const other of taken) this.cells[other] = FREE;
    this.measure();
    const alone = BESIDE[point].every(other => this.cells[other] !== this.seat);
    if (taken.length === 1 && alone && this.free[point] === 1) this.ko = taken[0];
  }

  outcome() {
    if (this.passes < 2) return null;
    const [zero, one] = [0, 1].map(seat => this.cells.filter(cell => cell === seat).length);
    return zero > one + EXTRA ? 0 : 1;
  }
}

const suit = card => Math.floor(card / 13);
const HEARTS = 3;
const QUEEN = 36;
const points = card => (suit(card) === HEARTS ? 1 : card === QUEEN ? 13 : 0);

class Hearts {
  constructor(dice) {
    const deck = Array.from({length: 52}, (_, card) => card);
    dice.shuffle(deck);
    this.hands = [0, 1, 2, 3].map(seat => deck.filter((_, place) => place % 4 === seat));
    this.given = [[], [], [], []];
    this.giving = true;
    this.trick = [null, null, null, null];
    this.taken = [0, 0, 0, 0];
    this.lead = null;
    this.broken = false;
    this.seat = 0;
  }

  mayLead(hand, card) {
    if (hand.length === 13) return card === 0;
    return suit(card) !== HEARTS || this.broken || hand.every(other => suit(other) === HEARTS);
  }

  mayFollow(hand, card) {
    if (suit(card) === this.lead) return true;
    if (hand.some(other => suit(other) === this.lead)) return false;
    return hand.length < 13 || points(card) === 0 || hand.every(other => points(other) > 0);
  }

  // A move is a seat and a card: in the first phase all who have not given three cards may give.
  moves() {
    const found = [];
    if (this.giving) {
      for (let seat = 0; seat < 4; seat += 1) {
        if (this.given[seat].length < 3) for (const card of this.hands[seat]) found.push([seat, card]);
      }
      return found;
    }
    const hand = this.hands[this.seat];
    for (const card of hand) {
      if (this.lead === null ? this.mayLead(hand, card) : this.mayFollow(hand, card)) found.push([this.seat, card]);
    }
    return found;
  }

  play([seat, card]) {
    this.hands[seat].splice(this.hands[seat].indexOf(card), 1);
    if (this.giving) {
      this.given[seat].push(card);
      if (this.given.every(cards => cards.length === 3)) this.handOver();
    } else {
      this.lay(card);
    }
  }

  handOver() {
    this.given.forEach((cards, seat) => this.hands[(seat + 1) % 4].push(...cards));
    this.giving = false;
    this.seat = this.hands.findIndex(hand => hand.includes(0));
  }

  lay(card) {
    this.trick[this.seat] = card;
    if (this.lead === null) this.lead = suit(card);
    if (suit(card) === HEARTS) this.broken = true;
    if (this.trick.includes(null)) {
      this.seat = (this.seat + 1) % 4;
      return;
    }
    const best = Math.max(...this.trick.filter(other => suit(other) === this.lead));
    this.seat = this.trick.indexOf(best);
    this.taken[this.seat] += this.trick.reduce((sum, other) => sum + points(other), 0);
    this.trick = [null, null, null, null];
    this.lead = null;
  }

  outcome() {
    if (this.giving || this.hands.some(hand => hand.length > 0) || this.trick.some(card => card !== null)) return null;
    if (this.taken.includes(26)) return this.taken.indexOf(26);
    const least = Math.min(...this.taken);
    return this.taken.filter(taken => taken === least).length === 1 ? this.taken.indexOf(least) : DRAWN;
  }
}

const GAMES = {reversi: Reversi, go: Go, hearts: Hearts};

// Plays one match, and gives its winner and how many acts it had.
function match(Game, dice) {
  const game = new Game(dice);
  for (let acts = 0; ; acts += 1) {
    const outcome = game.outcome();
    if (outcome !== null) return {outcome, acts};
    const moves = game.moves();
    game.play(moves[dice.below(moves.length)]);
  }
}

// Plays matches for so many seconds of processor time.
function measure(Game, seconds) {
  const dice = new Dice(1);
  const won = [0, 0, 0, 0];
  const played = {matches: 0, acts: 0, drawn: 0, won, seconds: 0};
  const before = process.cpuUsage();
  while (played.seconds < seconds) {
    const {outcome, acts} = match(Game, dice);
    played.matches += 1;
    played.acts += acts;
    if (outcome === DRAWN) played.drawn += 1;
    else won[outcome] += 1;
    const {user, system} = process.cpuUsage(before);
    played.seconds = (user + system) / 1e6;
  }
  return played;
}

function main(words) {
  const seconds = words.length > 0 ? Number(words[0]) : 3;
  const names = words.length > 1 ? words.slice(1) : Object.keys(GAMES);
  const unknown = names.find(name => !(name in GAMES));
  if (!(seconds > 0) || unknown !== undefined) {
    console.error(`usage: node bench/random_games.js [SECONDS [${Object.keys(GAMES).join(' | ')} ..]]`);
    return 2;
  }
  const row = cells => console.log(cells.map((cell, place) => String(cell).padEnd([10, 10, 14, 16, 0][place])).join('').trimEnd());
  row(['game', 'matches', 'acts a match', 'acts a second', 'won, drawn']);
  for (const name of names) {
    const {matches, acts, drawn, won, seconds: spent} = measure(GAMES[name], seconds);
    const of = GAMES[name] === Hearts ? won : won.slice(0, 2);
    row([name, matches, (acts / matches).toFixed(1), Math.round(acts / spent), `${of.join(' ')}, ${drawn}`]);
  }
  return 0;
}

process.exitCode = main(process.argv.slice(2));
