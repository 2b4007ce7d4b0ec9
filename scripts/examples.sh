#!/usr/bin/env bash
# Runs every example and compares what it gives with what stands beside it; a line a thing.
# usage: scripts/examples.sh     EDGE names another program than the one that is built here
set -u
cd "$(dirname "$0")/.." || exit 1
export EDGE=${EDGE:-$PWD/crates/edge/out/edge}
[ -x "$EDGE" ] || { echo "examples: the program isn't built; left out"; exit 0; }
work=$(mktemp -d) || exit 1
trap 'rm -rf "$work"' EXIT
failed=0

told() { # STATUS, what is told: one line, and the difference where there is one
  if [ "$1" = 0 ]; then echo "examples: $2"; else echo "examples: $2: WRONG"; cat "$work/difference"; failed=1; fi
}

# The document as a deployment, before its trace.
traced() { printf '{"deploy":'; tr -d '\n' <"$1.json"; echo '}'; cat "$1.trace.jsonl"; }

compare() { # WANTED, GOT
  diff "$1" "$2" >"$work/difference"
}

rules() { # NAME, without its ending
  "$EDGE" check <"$1.json" >"$work/checked"
  grep -q '^ok ' "$work/checked" || cp "$work/checked" "$work/difference"
  grep -q '^ok ' "$work/checked"; told $? "$(basename "$1").json is taken"
  traced "$1" | "$EDGE" replay >"$work/output"
  compare "$1.output" "$work/output"; told $? "$(basename "$1").trace.jsonl is answered by $(basename "$1").output"
}

# A recorded log, made a trace, is answered under rules.json but for the moments at which limits end.
logs() { # SOURCE
  command -v jq >/dev/null || { echo "examples: $1.log: jq isn't installed; left out"; return; }
  jq -c -f "examples/logs/$1.jq" "examples/logs/$1.log" >"$work/logs.trace.jsonl"
  cp examples/logs/rules.json "$work/logs.json"
  traced "$work/logs" | "$EDGE" replay | sed 's/over@[0-9]*/over@UNTIL/g' >"$work/output"
  compare examples/logs/wanted.output "$work/output"; told $? "$1.log is answered by wanted.output"
}

"$EDGE" replay <examples/first.jsonl >"$work/output"
printf 'deploy v1\n1 v1 block:403 fw/r1 /admin -\n' >"$work/wanted"
compare "$work/wanted" "$work/output"; told $? "first.jsonl is answered"
for document in examples/rules/*.json; do rules "${document%.json}"; done
for source in nginx caddy haproxy; do logs "$source"; done
scripts/language.py >"$work/difference"; told $? "$(tail -n 1 "$work/difference")"
exit $failed
