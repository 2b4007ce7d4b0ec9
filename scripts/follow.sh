#!/usr/bin/env bash
# Shows that an answer comes while the input stays open: writes one line at a time into a pipe, and waits for its answer,
# at most ten seconds, before the next is written.
# usage: scripts/follow.sh
set -u
cd "$(dirname "$0")/.." || exit 1
program=crates/edge/out/edge
[ -x "$program" ] || { echo "follow: the program isn't built; left out"; exit 0; }
coproc edge { exec "$program" replay; }
failed=0
while IFS= read -r line; do
  printf '%s\n' "$line" >&"${edge[1]}"
  if IFS= read -r -t 10 answer <&"${edge[0]}"; then
    echo "while the pipe is open: $answer"
  else
    echo "no answer came while the pipe was open"
    failed=1
  fi
done <examples/first.jsonl
pid=$edge_PID
exec {edge[1]}>&-
wait "$pid"
status=$?
[ "$status" = 0 ] || { echo "status $status, wanted 0"; failed=1; }
exit $failed
