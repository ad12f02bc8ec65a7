// React: a hook that follows a match. `const { state, match } = useMatch(server, place)`, where `place` comes from `server.join`, or is
// `{ match: "0-1" }` for a spectator. Memoize `place`: another object is another connection.
import { useEffect, useState, useSyncExternalStore } from "react";

const NOTHING = { status: "connecting", pause: null, row: null, settled: null, shown: null, guessed: 0, waiting: [], mayAct: false, error: null };

export function useMatch(server, place) {
  const [match, setMatch] = useState(null);
  useEffect(() => {
    const followed = server.follow(place);
    setMatch(followed);
    return () => followed.close();
  }, [server, place]);
  const state = useSyncExternalStore(
    (changed) => match?.subscribe(changed) ?? (() => {}),
    () => match?.state ?? NOTHING,
    () => NOTHING,
  );
  return { state, match };
}
