// Svelte: a readable store of a match's state. `const game = matchStore(server, place)`, then `$game.shown` in the markup, and
// `game.match.move("roll")`. The connection is there while something subscribes.
export function matchStore(server, place, options) {
  let listeners = 0;
  const store = {
    match: null,
    subscribe(run) {
      if (listeners++ === 0) store.match = server.follow(place, options);
      const stop = store.match.subscribe(run);
      run(store.match.state);
      return () => {
        stop();
        if (--listeners === 0) store.match.close();
      };
    },
  };
  return store;
}
