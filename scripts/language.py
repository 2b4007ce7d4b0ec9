#!/usr/bin/env python3
"""Runs every example of docs/LANGUAGE.md by `edge replay` and says which of them isn't so.

usage: scripts/language.py [PAGE]

The page's blocks are marked: `request` and `lists` are what the examples are asked of; `value` holds lines
`EXPRESSION -> VALUE`; `value of the reply` holds the same for the phase of the reply; `refused` holds lines
`DOCUMENT -> PLACE CAUSE`; `replay` is a trace, and the next block marked `answer` is its output. EDGE names another
program than the one that is built here.
"""
import json
import os
import re
import subprocess
import sys
from dataclasses import dataclass
from pathlib import Path

TOP = Path(__file__).resolve().parent.parent
EDGE = os.environ.get("EDGE", str(TOP / "crates" / "edge" / "out" / "edge"))
REQUEST_PHASE = "http_request_firewall_custom"
REPLY_PHASE = "http_response_headers_transform"


@dataclass
class Block:
    mark: str
    lines: list
    number: int  # the page's line at which it begins


@dataclass
class Case:
    where: str  # the page's line, and what stands there
    trace: list  # lines for `edge replay`
    wanted: list  # one of these texts for each answer, versions and numbers left out


def blocks_of(page):
    """The marked blocks of a page, in order."""
    blocks, open_block = [], None
    for number, line in enumerate(page.read_text().splitlines(), 1):
        if open_block is None and re.fullmatch(r"```[a-z ]+", line):
            open_block = Block(line[3:], [], number)
        elif line == "```" and open_block is not None:
            blocks.append(open_block)
            open_block = None
        elif open_block is not None:
            open_block.lines.append(line)
    return blocks


def quoted(text):
    """A text of the language that stands for these bytes."""
    return '"' + text.replace("\\", "\\\\").replace('"', '\\"') + '"'


def condition_of(expression, value):
    """A condition that is met exactly where the expression has the value, and whether it is to be met."""
    if value in ("true", "false"):
        return expression, value == "true"
    if value == "no text":
        return f'{expression} eq "" or {expression} ne ""', False
    if value == "no number":
        return f"{expression} eq 0 or {expression} ne 0", False
    if value.startswith("["):
        elements = json.loads(value)
        count = f"len({expression}) eq {len(elements)}"
        joined = "\x01".join(elements)
        return f"{count} and join({expression}, \"\x01\") eq {quoted(joined)}", True
    return f"{expression} eq {value}", True


def rule_of(condition, phase):
    """A rule of the phase whose work shows in the answer."""
    if phase == REQUEST_PHASE:
        return {"id": "r", "expression": condition, "action": "block"}
    met = {"met": {"operation": "set", "value": "yes"}}
    return {"id": "r", "expression": condition, "action": "rewrite", "action_parameters": {"headers": met}}


def value_case(where, text, phase, lists, request):
    expression, value = text.rsplit(" -> ", 1)
    if value.startswith("refused "):
        condition, answers = expression, ["deploy refused /rulesets/0/rules/0/expression " + value[8:]]
    else:
        condition, met = condition_of(expression, value)
        answers = ["deploy", "met" if met else "not met"]
    ruleset = {"id": "s", "kind": "zone", "phase": phase, "rules": [rule_of(condition, phase)]}
    deploy = json.dumps({"deploy": {"lists": lists, "rulesets": [ruleset]}})
    return Case(where, [deploy] + ([request] if len(answers) == 2 else []), answers)


def refused_case(where, text):
    document, refusal = text.rsplit(" -> ", 1)
    return Case(where, ['{"deploy":' + document + "}"], ["deploy refused " + refusal])


def shown(answer):
    """What an answer says, without versions and numbers."""
    if answer.startswith("deploy v"):
        return "deploy"
    if re.match(r"\d+ v\d+ ", answer):
        return "met" if " block:403 s/r " in answer or "met:yes" in answer else "not met"
    return answer


def replay(trace):
    """The lines that `edge replay` answers."""
    text = "".join(line + "\n" for line in trace)
    ran = subprocess.run([EDGE, "replay"], input=text.encode(), stdout=subprocess.PIPE, check=False)
    if ran.returncode not in (0, 3):
        sys.exit(f"language: edge replay ended with status {ran.returncode}")
    return ran.stdout.decode().splitlines()


def cases_of(blocks):
    """The examples of one line."""
    lists = json.loads("".join(next(b for b in blocks if b.mark == "lists").lines))
    request = next(b for b in blocks if b.mark == "request").lines[0]
    phases = {"value": REQUEST_PHASE, "value of the reply": REPLY_PHASE}
    for block in blocks:
        for number, text in enumerate(block.lines, block.number + 1):
            where = f"line {number}: {text}"
            if block.mark in phases:
                yield value_case(where, text, phases[block.mark], lists, request)
            elif block.mark == "refused":
                yield refused_case(where, text)


def check_cases(cases):
    """How many examples of one line aren't so; all are run in one trace."""
    answers = iter(replay([line for case in cases for line in case.trace]))
    failed = 0
    for case in cases:
        got = [next(answers, "nothing")]
        if len(case.trace) == 2:
            got.append(next(answers, "nothing"))
        if [shown(answer) for answer in got] != case.wanted:
            failed += 1
            print(f"language: not so: {case.where}\n  answered: {' | '.join(got)}")
    return failed


def check_traces(blocks):
    """How many traces there are, and how many are answered in another way than the page says."""
    count = failed = 0
    for at, block in enumerate(blocks):
        if block.mark == "replay":
            count += 1
            answers, wanted = replay(block.lines), blocks[at + 1].lines
            if answers != wanted:
                failed += 1
                print(f"language: not so: the trace at line {block.number} is answered", *answers, sep="\n  ")
    return count, failed


def main():
    if not os.access(EDGE, os.X_OK):
        print("language: the program isn't built; left out")
        sys.exit(0)
    page = Path(sys.argv[1]) if len(sys.argv) > 1 else TOP / "docs" / "LANGUAGE.md"
    blocks = blocks_of(page)
    cases = list(cases_of(blocks))
    failed = check_cases(cases)
    count, failed_traces = check_traces(blocks)
    print(f"language: {len(cases)} examples and {count} traces of {page.name}, {failed + failed_traces} not so")
    sys.exit(1 if failed + failed_traces else 0)


if __name__ == "__main__":
    main()
