#!/usr/bin/env bash
# Prints a script: one match of Blind Bid with eight seats in which seat 0 makes so many boasts, and then so many spectators who begin
# to look at it, each of whom takes what waits.
#   bench/syncs.sh [BOASTS [SPECTATORS]]
# With no arguments: 4,096 boasts and 31 spectators, the most that there is room for beside the player.
boasts=${1:-4096} spectators=${2:-31}
"$(dirname "${BASH_SOURCE[0]}")/boasts.sh" "$boasts" 1 "$boasts"
for ((session = 1; session <= spectators; session++)); do
  printf 's%d {"key":null,"match":"0-1","seat":null,"type":"sync"}\nt%d\n' "$session" "$session"
done
