#!/usr/bin/env bash
# Measures one call of each layer by the program `edge_bench`, and how a wildcard's time grows with the text. Where cargo is
# there, steps on lanes stand beside those of a plain Rust counter (bench/lanes), steps on shared counters beside those of 64
# mutexes round it (bench/counters), and heads beside `httparse` with the same copies (bench/heads).
# usage: bench/layers.sh [SECONDS [NAME ..]]      the rounds of a run take SECONDS at least (0.25); of the benches those of
# these names alone
# needs: the built program (`rt run` in crates/edge_bench) and python3; for heads Debian's librust-httparse-dev
# Each bench runs five times without a round and five times with many, by turns. A call's time is the difference of the two
# over the number of rounds, so that starting and building don't count. It includes picking what is asked for, some ns.
set -eu
here=$(cd "$(dirname "$0")" && pwd)
program=$here/../crates/edge_bench/out/edge_bench
registry=${CARGO_REGISTRY_DIR:-/usr/share/cargo/registry}
command -v python3 >/dev/null || { echo "layers: no python3 here; left out"; exit 0; }
[ -x "$program" ] || { echo "layers: the program isn't built; left out"; exit 0; }
lanes= counters= heads=
if command -v cargo >/dev/null; then
  for name in lanes counters; do
    (cd "$here/$name" && cargo build --release --offline --quiet)
  done
  lanes=$here/lanes/target/release/lanes
  counters=$here/counters/target/release/counters
  if ls -d "$registry"/httparse-* >/dev/null 2>&1; then
    (cd "$here/heads" && cargo build --release --offline --quiet \
      --config 'source.crates-io.replace-with="packaged"' \
      --config "source.packaged.directory=\"$registry\"")
    heads=$here/heads/target/release/heads
  fi
fi

python3 - "$program" "$lanes" "$counters" "$heads" "$@" <<'P'
import os, statistics, subprocess, sys, time
edge, lanes, counters, heads = sys.argv[1:5]
runs = 5
# How long the rounds of one run take at least, and how many there are at most.
long_enough, most_rounds = float((sys.argv[5:] or ['0.25'])[0]), 2 ** 30
# The benches that are taken; all, where none is named.
named = sys.argv[6:]

def run(name, size, rounds, program=edge):
    begun = time.perf_counter()
    child = subprocess.Popen([program, name, str(size), str(rounds)], stdout=subprocess.PIPE)
    said = child.stdout.read().decode()
    _, status, used = os.wait4(child.pid, 0)
    took = time.perf_counter() - begun
    child.returncode = os.waitstatus_to_exitcode(status)
    if child.returncode != 0:
        sys.exit('layers: %s %d %d ended with status %d' % (name, size, rounds, child.returncode))
    return took, used.ru_utime + used.ru_stime, said, used.ru_maxrss

def rounds_for(name, size, program):
    rounds, without = 1, run(name, size, 0, program)[0]
    while rounds < most_rounds:
        took = run(name, size, rounds, program)[0] - without
        if took >= long_enough:
            break
        # At most a hundred times as many, since a short time tells little.
        rounds = min(most_rounds, int(rounds * min(100, max(2, 1.2 * long_enough / max(took, 1e-6)))))
    return rounds

def measure(name, size, program):
    rounds = rounds_for(name, size, program)
    without, many = [], []
    for _ in range(runs):
        without.append(run(name, size, 0, program))
        many.append(run(name, size, rounds, program))
    if len({r[2] for r in many}) != 1:
        sys.exit('layers: %s %d %d gave different answers' % (name, size, rounds))
    def call(of, which):
        return (of(r[which] for r in many) - statistics.median(r[which] for r in without)) / rounds
    return call(min, 0), call(statistics.median, 0), call(min, 1), rounds, int(many[0][2].split()[2])

def shown(seconds):
    for unit, scale in (('s', 1), ('ms', 1e3), ('us', 1e6)):
        if seconds * scale >= 1:
            return '%.4g %s' % (seconds * scale, unit)
    return '%.3g ns' % (seconds * 1e9)

def told(name, size, ratio_to=None, program=edge):
    if named and name not in named:
        return None
    best, median, cpu, rounds, found = measure(name, size, program)
    ratio = '' if ratio_to is None else ', %.2f times the last' % (best / ratio_to)
    print('%-14s %6d  best %s, median %s, CPU %s (best), rounds %d, found %d%s' % (
        name if program == edge else 'plain', size, shown(best), shown(median), shown(cpu), rounds, found, ratio), flush=True)
    return best

# How many times its own time is that of plain Rust, the first line over the second.
def beside(name, size, ours, plain):
    if plain and ours is not None:
        theirs = told(name, size, None, plain)
        print('%-14s %6d  %.2f times plain Rust' % (name, size, ours / theirs), flush=True)

def load():
    return '%d processors, load %.2f' % (os.cpu_count(), os.getloadavg()[0])

print('one call, by %d runs; %s' % (runs, load()))
for size in (1024, 4096):
    told('lex', size)
for name in ('has_addr', 'has_text'):
    for size in (50, 500, 5000, 50000):
        told(name, size)
# `wild` has four short pieces. The other two have a piece half as long as the text, at the end or anywhere: there both
# lengths double. A doubling of the text can double the time of each at most.
for name in ('wild', 'wild_long', 'wild_middle'):
    last = None
    for doubled in range(7):
        last = told(name, 1000 * 2 ** doubled, last)
# Maps of many arguments, whose names are spread or look alike for 64 bytes: the time may grow a little more than they do.
told('names', 100)
for name in ('map', 'map_alike'):
    last = None
    for size in (100, 2325, 4650, 9300):
        last = told(name, size, last)
# A pick of the version in force, beside so many readers that pick as often, each in a thread of its own: where there are as
# many processors, its time may not grow with them.
for size in (0, 1, 3):
    told('pick', size)
# A step on lanes, of counters that are new and of such as have taken a million steps: for each number of keys the second may
# take half as long again. Plain Rust then does the same: how many times its own time is the plain one's, the first line over
# the second. At the end of a million steps on 250,000 keys the lanes are nearly full; the peak holds the asks too.
for threshold in (5, 1000):
    for size in (1, 10000, 250000):
        last = None
        for age in ('', '_worn'):
            name = 'lane_%d%s' % (threshold, age)
            last = told(name, size, last)
            beside(name, size, last, lanes)
if not named:
    print('lane_5_worn    250000  peak %d KiB' % run('lane_5_worn', 250000, 0)[3])
# A step on counters that so many threads share, each thread on a lane of its own, or all on one: the time is that of a round,
# in which each thread takes a step, so where there are as many processors it may not grow with the threads that are apart.
# `count_alone` takes the steps of one thread on lanes that are not shared.
told('count_alone', 1)
for name in ('count_apart', 'count_together'):
    last = None
    for size in (1, 2, 4):
        last = told(name, size, last)
        beside(name, size, last, counters)
# A request of a browser's usual head, and of one with 80 fields more.
for size in (0, 80):
    beside('head', size, told('head', size), heads)
print('at the end: %s' % load())
P
