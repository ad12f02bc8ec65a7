#!/bin/sh
# Serves the page and its matches to everybody who reaches this machine, for an evening, until it is stopped by Ctrl-C.
#   host.sh [PORT]     the port is 7000 if none is given; the next one tells this machine alone what goes on
# Matches are kept in the folder `rooms` beside this file (if it is installed: in `sarpuntxe-rooms` at home), or in SARPUNTXE_ROOMS,
# and are there again at the next start.
# SARPUNTXE_BOTS="GAME SEATS" has bots play a first match of that game, as "pig 3". Nothing is kept then.
# Further options of board_server stand in SARPUNTXE_OPTIONS, as SARPUNTXE_OPTIONS="--silence 900".
here=$(cd "$(dirname "$0")" && pwd) || exit 1
port=${1:-7000}
case $port in '' | *[!0-9]*) echo "host.sh: $port is no port" >&2; exit 1 ;; esac
case $here in
  /usr/*) rooms=${SARPUNTXE_ROOMS:-$HOME/sarpuntxe-rooms} ;;
  *) rooms=${SARPUNTXE_ROOMS:-$here/rooms} ;;
esac

first() {
  for one in "$@"; do [ -e "$one" ] && { echo "$one"; return; }; done
}
page=$(first "$here/page" "$here/../out/page" "$here/../page" /usr/share/sarpuntxe/page)
if [ -n "$SARPUNTXE_UNPROVED" ]; then
  serve="$here/../checks/try_server.py"
  set -- "0.0.0.0:$port"
else
  serve=$(first "$here/board_server" "$here/../crates/board_server/out/board_server" /usr/lib/sarpuntxe/board_server)
  set -- serve --listen "0.0.0.0:$port"
fi
[ -n "$serve" ] || { echo "host.sh: there is no board_server: make program builds it, and a release has it" >&2; exit 1; }
set -- "$@" --ws --page "$page" --rooms 64 --idle 1440 --status "127.0.0.1:$((port + 1))"
if [ -n "$SARPUNTXE_BOTS" ]; then
  set -- "$@" --links 32 --bots "${SARPUNTXE_BOTS% *}" --seats "${SARPUNTXE_BOTS##* }" --pace 3
else
  mkdir -p "$rooms" && chmod 700 "$rooms" || exit 1
  set -- "$@" --links 256 --keep "$rooms"
fi
# A connection takes a descriptor, a worker two, a room one.
ulimit -n 1024 2>/dev/null

echo "You:          http://127.0.0.1:$port/"
addresses=$(hostname -I 2>/dev/null)
for address in ${addresses:-ADDRESS-OF-THIS-MACHINE}; do
  case $address in *:*) ;; *) echo "Your friends: http://$address:$port/" ;; esac
done
echo "What goes on: http://127.0.0.1:$((port + 1))/status"
if [ -n "$SARPUNTXE_BOTS" ]; then
  echo "Bots play match 0-1 once somebody has opened the page, and a person can take the place of each. Nothing is kept: Ctrl-C ends all matches."
else
  echo "Matches are kept in $rooms, 64 at a time. Ctrl-C ends the server, and the next start goes on from there."
fi
cat <<'END'
What it does not do:
- No TLS. Whoever can listen in this network can read moves, and the keys by which seats are kept. A proxy adds it.
- No invitation alone. Everybody who reaches the address sees all matches, may watch them, and may take a free seat.
- No way in from outside: your router and firewall decide who reaches these addresses.
- No bots where matches are kept, and none but at match 0-1.
END
# shellcheck disable=SC2086
"$serve" "$@" $SARPUNTXE_OPTIONS
status=$?
case $status in
  8) echo "host.sh: it cannot listen on port $port or $((port + 1)): another program has it, or a port below 1024 needs root" >&2 ;;
  14) echo "host.sh: $rooms cannot be used: another server has it, or the disk is full or read-only" >&2 ;;
esac
exit $status
