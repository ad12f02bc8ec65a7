#!/usr/bin/env bash
# Times a built program on long scripts: the least processor time of five runs, the most memory, and beside them what JSON alone
# costs in Node, where there is one. The argument is the program: bench/run.sh crates/board_server/out/board_server
set -euo pipefail
here=$(dirname "${BASH_SOURCE[0]}")
program=$1
work=$(mktemp -d)
trap 'rm -rf "$work"' EXIT
TIMEFORMAT='%U %S'

# The seconds of processor time of a command.
seconds() {
  { time "$@" >/dev/null 2>&1; } 2>&1 | { read -r user system && bc <<<"$user + $system"; }
}

# The least of what a command prints five times.
least() {
  for _ in 1 2 3 4 5; do "$@"; done | sort -n | head -n 1
}

play() {
  "$program" script <"$work/script"
}

memory() {
  if [ -x /usr/bin/time ]; then
    /usr/bin/time -f %M -o "$work/memory" "$program" script <"$work/script" >/dev/null
    echo "$(($(<"$work/memory") / 1024)) MB"
  else
    echo -
  fi
}

row() {
  printf '%-46s %9s %9s %9s %7s\n' "$@"
}

row script program memory Node ratio
while read -r script first second third what; do
  "$here/$script.sh" "$first" "$second" "$third" >"$work/script"
  play >"$work/output"
  spent=$(least seconds play)
  floor=- ratio=-
  if command -v node >/dev/null; then
    floor=$(least node "$here/floor.js" "$work/script" "$work/output")
    ratio=$(bc <<<"scale=2; $spent / $floor")
  fi
  row "$what" "$spent s" "$(memory)" "$floor" "$ratio"
done <<'ROWS'
boasts 4096 8 1 eight sessions, a take after each action
boasts 4096 32 64 thirty-two sessions, a take each 64 actions
boasts 4096 1 4096 one session, one take at the end
syncs 4096 31 - the same, and thirty-one syncs of its end
ROWS
