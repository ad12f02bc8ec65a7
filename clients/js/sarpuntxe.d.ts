// Types of sarpuntxe.mjs, of every line of the protocol, and of the state of each game that the server comes with.
// ../check_lines.py compares the types of lines and states with ../lines.schema.json.

// ---- the parts of lines

export type MatchName = string;
export type Key = string;
export type Reason = "no-match" | "unauthorized" | "game-over" | "match-full" | "cannot-undo-now" | "not-active" | "unknown-move"
  | "wrong-number" | "nothing-to-undo" | "nothing-to-redo" | "not-yours" | "not-undoable" | "invalid-move" | "too-early"
  | "too-many-words" | "too-many-events";
export type Refusal = "bad-message" | "no-game" | "full" | "bad-seats" | "no-start" | "no-match" | "no-seat" | "seat-taken" | "bad-name"
  | "unauthorized" | "already-attached" | "not-attached" | "not-a-bot";
export type EventName = "endTurn" | "setPhase" | "setStage" | "endPhase" | "endStage" | "endGame";

export interface Move {
  args: (number | string)[];
  kind: "move";
  move: string;
}

/** A move in the log whose arguments are hidden from this seat. */
export interface HiddenMove {
  args: null;
  kind: "move";
  move: string;
}

export interface Event {
  event: EventName;
  kind: "event";
  to: number | string | null;
}

export interface Undo {
  kind: "undo";
}

export interface Redo {
  kind: "redo";
}

export type Act = Move | Event | Undo | Redo;

/** How a match has ended. */
export interface Winner {
  winner: number;
}

export interface Draw {
  draw: true;
}

export interface EndedGame {
  ended: true;
}

/** Whose turn it is, and what else is the same in every game. */
export interface Context {
  /** Null: the current player alone may act, until the end. Else a member for each seat that may act, with its stage. */
  activePlayers: Record<string, string | null> | null;
  currentPlayer: number;
  gameover: Winner | Draw | EndedGame | null;
  numMoves: number;
  numPlayers: number;
  phase: string | null;
  playOrder: number[];
  playOrderPos: number;
  turn: number;
}

/** An accepted action. Number, phase and turn are those before it. */
export interface Entry {
  act: Act | HiddenMove;
  number: number;
  phase: string | null;
  seat: number;
  turn: number;
}

/** A match as a seat may see it. */
export interface Snapshot<G = unknown> {
  ctx: Context;
  g: G;
  log: Entry[];
  number: number;
}

export interface Player {
  name: string | null;
  seat: number;
}

export interface MatchRow {
  game: string;
  match: MatchName;
  over: boolean;
  players: Player[];
}

// ---- the states of the games

export interface TicTacToe {
  cells: (number | null)[];
}

export interface Countdown {
  heap: number;
  last: number | null;
}

export interface Pig {
  pot: number;
  totals: number[];
}

export interface HighHand {
  common: HighHandCommon;
  players: (Hand | null)[];
  secret: null;
}

export interface HighHandCommon {
  hands: number[];
  left: number;
  scores: number[];
  table: (number | null)[];
}

/** Cards are 0 to 51, in the order in which `lay` counts. */
export interface Hand {
  hand: number[];
}

export interface BlindBid {
  common: BlindBidCommon;
  players: (Bid | null)[];
  secret: null;
}

export interface BlindBidCommon {
  boasts: number[];
  revealed: (number | null)[] | null;
}

export interface Bid {
  bid: number | null;
}

export interface Captions {
  common: CaptionsCommon;
  players: (Caption | null)[];
  secret: null;
}

export interface CaptionsCommon {
  revealed: (string | null)[] | null;
}

export interface Caption {
  text: string | null;
}

/** The state of each game, by its name. */
export interface Games {
  "tic-tac-toe": TicTacToe;
  "countdown": Countdown;
  "pig": Pig;
  "high-hand": HighHand;
  "blind-bid": BlindBid;
  "captions": Captions;
}

// ---- the lines that a client sends

export interface GamesRequest {
  type: "games";
}

export interface MatchesRequest {
  game: string;
  type: "matches";
}

export interface LookRequest {
  match: MatchName;
  type: "look";
}

export interface CreateRequest {
  game: string;
  seats: number;
  type: "create";
}

export interface JoinRequest {
  match: MatchName;
  name: string;
  seat: number;
  type: "join";
}

export interface RenameRequest {
  key: Key;
  match: MatchName;
  name: string;
  seat: number;
  type: "rename";
}

export interface LeaveRequest {
  key: Key;
  match: MatchName;
  seat: number;
  type: "leave";
}

export interface TakeoverRequest {
  match: MatchName;
  seat: number;
  type: "takeover";
}

export interface SyncRequest {
  key: Key | null;
  match: MatchName;
  protocol?: 1 | 2;
  seat: number | null;
  type: "sync";
}

export interface ActRequest {
  act: Act;
  key: Key;
  match: MatchName;
  number: number;
  ticket: number;
  type: "act";
}

export type ClientLine = GamesRequest | MatchesRequest | LookRequest | CreateRequest | JoinRequest | RenameRequest | LeaveRequest
  | TakeoverRequest | SyncRequest | ActRequest;

// ---- the lines that the server sends

export interface GamesAnswer {
  games: string[];
  type: "games";
}

export interface MatchesAnswer {
  matches: MatchRow[];
  type: "matches";
}

export interface LookAnswer {
  row: MatchRow;
  type: "match";
}

export interface CreateAnswer {
  match: MatchName;
  type: "created";
}

export interface JoinAnswer {
  key: Key;
  match: MatchName;
  seat: number;
  type: "joined";
}

export interface RenameAnswer {
  match: MatchName;
  seat: number;
  type: "renamed";
}

export interface LeaveAnswer {
  match: MatchName;
  seat: number;
  type: "left";
}

export interface TakeoverAnswer {
  match: MatchName;
  seat: number;
  type: "asked";
}

export interface RefusedAnswer {
  field: string | null;
  reason: Refusal;
  type: "refused";
}

export interface AgainAnswer {
  ticket: number | null;
  type: "again";
}

export interface SyncAnswer<G = unknown> {
  match: MatchName;
  protocol?: 2;
  seat: number | null;
  snapshot: Snapshot<G>;
  type: "sync";
}

export interface OkAnswer {
  number: number;
  ticket: number;
  type: "ok";
}

export interface NoAnswer {
  number: number;
  reason: Reason;
  ticket: number;
  type: "no";
}

export interface Update<G = unknown> {
  ctx: Context;
  entry: Entry;
  g: G;
  number: number;
  type: "update";
}

/** Protocol 2: what changed. */
export interface Change {
  ctx: Partial<Context>;
  entry: Entry;
  g: StateChange;
  number: number;
  type: "change";
  was: number;
}

export interface StateChange {
  gone: string[];
  put: Record<string, unknown>;
}

export interface Bye {
  type: "bye";
  why: "left" | "lagging";
}

export type ServerLine<G = unknown> = GamesAnswer | MatchesAnswer | LookAnswer | CreateAnswer | JoinAnswer | RenameAnswer | LeaveAnswer
  | TakeoverAnswer | RefusedAnswer | AgainAnswer | SyncAnswer<G> | OkAnswer | NoAnswer | Update<G> | Change | Bye;

// ---- the client

export type Fault = "again" | "cut" | "not-sent" | "unreachable" | "silent";
export type EndReason = "left" | "replaced" | "closed";

/** What went wrong. The message is for people. */
export class SarpuntxeError extends Error {
  constructor(kind: "refused" | "no" | "fault" | "ended", reason: string, more?: { field?: string | null; number?: number | null });
  /** `refused`: the server refused a request. `no`: an action does not count. `fault`: no answer. `ended`: the match is followed no more. */
  readonly kind: "refused" | "no" | "fault" | "ended";
  readonly reason: Refusal | Reason | Fault | EndReason;
  /** With `bad-message`: the member of the line that is bad. */
  readonly field: string | null;
  /** With `no`: the number of the present state. */
  readonly number: number | null;
}

export const REFUSALS: Readonly<Record<Refusal, string>>;
export const REASONS: Readonly<Record<Reason, string>>;
export const FAULTS: Readonly<Record<Fault | EndReason | "lagging", string>>;
export const GAMES: Readonly<Record<keyof Games, { least: number; most: number; ignoring: string[] }>>;

/** A seat and its key, or a spectator's place, which has neither. */
export interface Place {
  match: MatchName;
  seat?: number | null;
  key?: Key | null;
}

export interface SeatPlace {
  match: MatchName;
  seat: number;
  key: Key;
}

/** A program that guesses ahead, as `startProgram()` of the page's guess.js makes one. */
export interface GuessProgram {
  run(line: string): Promise<{ send: string | null; shown: Snapshot<any> | null }>;
}

export type Guess = GuessProgram | null | Promise<GuessProgram | null>;

export interface ServerOptions {
  /** The WebSocket to use, if not the global one. */
  WebSocket?: new (address: string) => WebSocket;
}

export interface FollowOptions extends ServerOptions {
  /** 1 or 2; 2 by default, and 1 for a server that does not speak 2, and with `guess`. */
  protocol?: 1 | 2;
  /** How many milliseconds to wait between two looks at who sits where; 4,000 by default. */
  look?: number;
  /** A program that guesses ahead. Without one `shown` is `settled`. */
  guess?: Guess | ((game: string) => Guess);
  /** Is called with each line of the server, before the state changes. */
  heard?: (line: ServerLine) => void;
}

export interface State<G = unknown> {
  /** `waiting`: the server does not answer yet. `broken`: the next try is in `pause` milliseconds. `ended`: for good, see `error`. */
  status: "connecting" | "waiting" | "open" | "broken" | "ended";
  pause: number | null;
  /** Who sits where. */
  row: MatchRow | null;
  /** What the server has said. While the connection is broken this may be old. */
  settled: Snapshot<G> | null;
  /** What to show: `settled`, and what is guessed ahead of it. */
  shown: Snapshot<G> | null;
  /** How many actions `shown` is ahead of `settled`. */
  guessed: number;
  /** Whether actions are guessed ahead now. */
  guesses: boolean;
  /** The actions of this client that have no verdict yet. */
  waiting: Act[];
  /** Whether this seat may act in `shown`. */
  mayAct: boolean;
  error: SarpuntxeError | null;
}

/** One session of the server: what is asked is answered in order. It throws a SarpuntxeError, `cut` or `not-sent`, where there is no answer. */
export interface Session {
  /** The server's line, whatever it is; one that is answered `again` is asked again, so many times in all at most: 8 by default. */
  ask(line: object | string, most?: number): Promise<ServerLine>;
  /** The server's line, if it is no refusal, which is thrown. */
  granted(line: object | string): Promise<ServerLine>;
}

export interface ConnectionHandlers {
  /** A connection stands. Once what this answers is done, the next pause is the shortest again. */
  opened(session: Session): unknown;
  /** A line of the server, also one that answers. */
  heard(line: ServerLine, text: string): void;
  /** `silent`: the server takes its time. `broken`: the next try is in so many milliseconds. */
  told(state: "connecting" | "silent" | "open" | "broken", pause?: number): void;
}

/** A connection that is made anew whenever it breaks, for those who speak lines themselves. `Match` stands on it. */
export class Connection {
  constructor(address: string, handlers: ConnectionHandlers, options?: ServerOptions);
  /** Connects now: in place of waiting for the end of a pause, or to begin another session. */
  connect(): void;
  /** Gives up a connection that stands, and makes another one after a pause. */
  retry(): void;
  ask(line: object | string, most?: number): Promise<ServerLine>;
  close(): void;
}

export class Server {
  constructor(address: string, options?: ServerOptions);
  open(): Promise<this>;
  close(): void;
  games(): Promise<string[]>;
  matches(game: string): Promise<MatchRow[]>;
  look(match: MatchName): Promise<MatchRow>;
  create(game: string, seats: number): Promise<MatchName>;
  join(match: MatchName, seat: number | null, name: string): Promise<SeatPlace>;
  rename(place: SeatPlace, name: string): Promise<void>;
  leave(place: SeatPlace): Promise<void>;
  takeover(match: MatchName, seat: number): Promise<void>;
  lobby(): Promise<{ game: string; matches: MatchRow[] }[]>;
  follow<G = unknown>(place: Place, options?: FollowOptions): Match<G>;
}

export class Match<G = unknown> implements AsyncIterable<State<G>> {
  constructor(address: string, place: Place, options?: FollowOptions);
  readonly match: MatchName;
  readonly seat: number | null;
  readonly state: State<G>;
  subscribe(listener: (state: State<G>) => void): () => void;
  until(holds: (state: State<G>) => boolean): Promise<State<G>>;
  [Symbol.asyncIterator](): AsyncIterator<State<G>>;
  /** Each answers the number of the state that the action made, and throws a SarpuntxeError if it does not count. */
  act(asked: Act): Promise<number>;
  move(name: string, ...args: (number | string)[]): Promise<number>;
  endTurn(to?: number | null): Promise<number>;
  event(name: EventName, to?: number | string | null): Promise<number>;
  undo(): Promise<number>;
  redo(): Promise<number>;
  look(): Promise<MatchRow>;
  /** Asks something else over the match's own connection, and answers the server's line, whatever it is. */
  ask(line: object | string): Promise<ServerLine>;
  rename(name: string): Promise<void>;
  leave(): Promise<void>;
  reconnect(): void;
  close(): void;
}

export function connect(address: string, options?: ServerOptions): Promise<Server>;
export function move(name: string, ...args: (number | string)[]): Move;
export function event(name: EventName, to?: number | string | null): Event;
export function endTurn(to?: number | null): Event;
export function undo(): Undo;
export function redo(): Redo;
export function activeSeats(ctx: Context): { seat: number; stage: string | null }[];
export function mayAct(ctx: Context, seat: number | null): boolean;
export function nextSnapshot<G>(before: Snapshot<G>, line: Update<G> | Change): Snapshot<G> | null;
