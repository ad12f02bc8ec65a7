#!/usr/bin/env bash
# Prints a script: one match of Blind Bid with eight seats, in which so many boasts are made in turn by the players that look at it.
#   bench/boasts.sh [BOASTS [SESSIONS [EVERY]]]
# Of the sessions the first eight are the players', the others spectators'; each takes what waits after every so many boasts.
# With no arguments: 4,096 boasts, eight sessions, and a take of each after every boast.
boasts=${1:-4096} sessions=${2:-8} every=${3:-1}
players=$((sessions < 8 ? sessions : 8))
echo "open blind-bid 8"
for ((session = 0; session < sessions; session++)); do
  if ((session < 8)); then
    printf 's%d {"key":"%032x","match":"0-1","seat":%d,"type":"sync"}\n' "$session" "$session" "$session"
  else
    printf 's%d {"key":null,"match":"0-1","seat":null,"type":"sync"}\n' "$session"
  fi
done
for ((number = 0; number < boasts; number++)); do
  player=$((number % players))
  printf 's%d {"act":{"args":[%d],"kind":"move","move":"boast"},"key":"%032x","match":"0-1","number":%d,"ticket":%d,"type":"act"}\n' \
    "$player" $((number % 10)) "$player" "$number" "$number"
  if (((number + 1) % every == 0)); then
    for ((session = 0; session < sessions; session++)); do echo "t$session"; done
  fi
done
