#!/usr/bin/env bash
# Plays three scripts and a world, each once for each allocation that it makes, with that allocation refused. Each run must end with
# status 7, having printed a first part of what its lines say, or answer `again` and go on. The argument is the program:
# bench/refused.sh crates/board_server/out/board_server. It needs a C compiler.
set -euo pipefail
here=$(dirname "${BASH_SOURCE[0]}")
program=$1
work=$(mktemp -d)
trap 'rm -rf "$work"' EXIT
cc -shared -fPIC -O1 -o "$work/refuse.so" "$here/refuse.c" -ldl

# One run with the allocation of this number refused.
play() {
  REFUSE=$3 LD_PRELOAD="$work/refuse.so" "$program" "$1" <"$2" >"$work/output" 2>/dev/null
}

each() {
  local command=$1 input=$here/../examples/$2 number=0 ended=0 went_on=0 status
  play "$command" "$input" 0
  cp "$work/output" "$work/whole"
  while true; do
    number=$((number + 1))
    status=0
    play "$command" "$input" "$number" || status=$?
    if [ "$status" = 7 ]; then
      ended=$((ended + 1))
    elif [ "$status" = 0 ] && cmp -s "$work/output" "$work/whole"; then
      break
    elif [ "$status" = 0 ] && grep -Eq '"type":"again"|^[0-9]+ again$' "$work/output"; then
      went_on=$((went_on + 1))
    else
      echo "$2: with allocation $number refused the status is $status" >&2
      exit 1
    fi
  done
  printf '%-24s %6d allocations refused: %6d ended with status 7, %6d went on\n' "$2" "$((number - 1))" "$ended" "$went_on"
}

each script tic-tac-toe.script
each script high-hand.script
each script lobby.script
each world guess.world
