#!/usr/bin/env bash
# Shows the statuses of the built program that a shell can bring about, and checks each.
# usage: scripts/statuses.sh
set -u
cd "$(dirname "$0")/.." || exit 1
program=crates/edge/out/edge
[ -x "$program" ] || { echo "statuses: the program isn't built; left out"; exit 0; }
failed=0
show() { # WANTED STATUS, what is shown; the run's status is in $?
  local got=$1 wanted=$2 what=$3
  if [ "$got" = "$wanted" ]; then echo "status $got: $what"; else echo "status $got, wanted $wanted: $what"; failed=1; fi
}
"$program" replay <examples/first.jsonl; show $? 0 "two good lines"
printf '{x\n' | "$program" replay; show $? 3 "a line that is no item"
printf '{"rulesets":[]}' | "$program" check; show $? 0 "a configuration without rulesets"
printf '[' | "$program" check; show $? 3 "a document that is no JSON"
printf '{"rulesets":[{"id":"a"}]}' | "$program" check; show $? 3 "a ruleset without a kind"
head -c 1048577 /dev/zero | "$program" check; show $? 3 "a document of 1,048,577 bytes"
"$program" check <examples; show $? 5 "a document that is a folder"
if [ -e /dev/full ]; then printf '{}' | "$program" check >/dev/full; show $? 6 "an answer that can't be written"; fi
"$program" make 7 1 </dev/null; show $? 0 "a deployment and one request, made from a seed"
"$program" make 7 1 <examples >/dev/null; show $? 0 "the same where the input is a folder: nothing is read of it"
if [ -e /dev/full ]; then "$program" make 7 1000 </dev/null >/dev/full; show $? 6 "made lines that can't be written"; fi
"$program" make 7 40 --run </dev/null; show $? 0 "forty requests, made, judged and summed up"
if [ -e /dev/full ]; then "$program" make 7 40 --run </dev/null >/dev/full; show $? 6 "a summary that can't be written"; fi
"$program" make 7 1 --run --run </dev/null; show $? 2 "a flag that stands twice"
"$program" replay --run </dev/null; show $? 2 "the flag of another command"
"$program" make 7 </dev/null; show $? 2 "the words 'make 7'"
"$program" make 07 1 </dev/null; show $? 2 "a seed with a zero before it"
"$program" make 7 10000001 </dev/null; show $? 2 "more than 10,000,000 requests"
"$program" </dev/null; show $? 2 "no words"
"$program" replay extra </dev/null; show $? 2 "the words 'replay extra'"
"$program" replay --workers 2 <examples/first.jsonl; show $? 0 "two good lines, by two workers"
"$program" replay --workers=2 <examples; show $? 5 "the same where the input is a folder"
"$program" replay --workers 0 </dev/null; show $? 2 "no workers"
"$program" replay --workers 65 </dev/null; show $? 2 "more than 64 workers"
"$program" replay --workers </dev/null; show $? 2 "an option without its value"
"$program" replay --workers 2 --workers 2 </dev/null; show $? 2 "an option that stands twice"
"$program" --help </dev/null; show $? 2 "an option that isn't there"
"$program" check check </dev/null; show $? 2 "a command and a further word"
"$program" -- replay </dev/null; show $? 0 "a command behind '--'"
"$program" replay <examples; show $? 5 "an input that is a folder"
if [ -e /dev/full ]; then "$program" replay <examples/first.jsonl >/dev/full; show $? 6 "an output that is full"; fi
exit $failed
