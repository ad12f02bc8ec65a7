// The page: the lobby, or the match that the address names.
import { linkTo, matchNamed, serverAddress } from "./address.js";
import { setText } from "./elements.js";
import { Lobby } from "./lobby.js";
import { Match } from "./match.js";
import { Connection, SarpuntxeError } from "./sarpuntxe.js";

const by = (id) => document.getElementById(id);
let shown = null;

/** Goes to a match, or to the lobby if it is null. */
function go(match) {
  history.pushState(null, "", linkTo(match));
  show();
  by("main").querySelector("h1").focus();
}

function show() {
  shown?.close();
  const match = matchNamed();
  const place = { address: serverAddress(), main: by("main"), connect, told, go };
  by("home").href = linkTo(null);
  setText(by("skip"), match === null ? "Skip to the games" : "Skip to the board");
  shown = match === null ? new Lobby(place) : new Match(place, match);
  scrollTo(0, 0);
}

/** A connection to the server that the address names. If it names none, that is told, and nothing is ever sent. */
function connect(handlers) {
  try {
    return new Connection(serverAddress(), handlers);
  } catch {
    handlers.told("wrong");
    return { connect() {}, close() {}, ask: () => Promise.reject(new SarpuntxeError("fault", "not-sent")) };
  }
}

/** Says how the connection is. While it is broken the next try is in so many milliseconds. */
function told(state, pause) {
  const words = {
    connecting: "Connecting …",
    silent: "The server does not answer yet: all its places may be taken.",
    open: "Connected",
    broken: `Connection lost. Trying again in ${Math.ceil(pause / 1_000)} s.`,
    wrong: "This address cannot be connected to.",
    rests: "",
  };
  setText(by("link-words"), words[state]);
  by("link").className = `link ${state}`;
  by("link-now").hidden = state !== "broken";
}

by("link-now").onclick = () => shown.connect();
by("skip").onclick = (event) => {
  event.preventDefault();
  (by("board") ?? by("games") ?? by("main")).focus();
};
by("home").onclick = (event) => {
  if (event.button || event.ctrlKey || event.metaKey || event.shiftKey) return;
  event.preventDefault();
  go(null);
};
addEventListener("popstate", show);
// A page that the browser keeps for going back gives its connection back, and begins anew when it is shown again.
addEventListener("pagehide", () => shown.close());
addEventListener("pageshow", (event) => { if (event.persisted) show(); });
show();
