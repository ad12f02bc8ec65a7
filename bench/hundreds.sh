#!/usr/bin/env bash
# Plays one match of Blind Bid in which seat 0 boasts 4,000 times, or COUNT times by hundreds, up to 4,000. Prints the state number at
# which each hundred began and what it took, in microseconds, from its first line written to its last line read; then the last hundred
# over the first. The arguments are the command to time: bench/hundreds.sh path/to/board_server script
set -euo pipefail
count=${COUNT:-4000}
key=00000000000000000000000000000000

# The script's lines for a hundred boasts from a state number on, and the take of what they print: two lines each.
boasts() {
  for ((number = $1; number < $1 + 100; number++)); do
    echo "s0 {\"act\":{\"args\":[1],\"kind\":\"move\",\"move\":\"boast\"},\"key\":\"$key\",\"match\":\"0-1\",\"number\":$number,\"ticket\":$((number + 1)),\"type\":\"act\"}"
  done
  echo t0
}

coproc server { "$@"; }
exec 3<&"${server[0]}" 4>&"${server[1]}"
printf 'open blind-bid 2\ns0 {"key":"%s","match":"0-1","seat":0,"type":"sync"}\nt0\n' "$key" >&4
head -n 2 <&3 >/dev/null
first=
for ((begun = 0; begun < count; begun += 100)); do
  lines=$(boasts "$begun")
  before=${EPOCHREALTIME/./}
  printf '%s\n' "$lines" >&4
  head -n 200 <&3 >/dev/null
  took=$((${EPOCHREALTIME/./} - before))
  echo "$begun $took"
  : "${first:=$took}"
done
echo "last over first: $((100 * took / first))%"
exec 4>&-
