#!/usr/bin/env bash
# Measures `edge replay` on a million request lines behind a deployment, beside plain Rust that does the same. The inputs:
# path: one rule compares the path; three: one rule has three tests of three fields; hundred: a hundred tests of the path in
# one expression; mixed100 and mixed1000: so many rules of five kinds of conditions, of which none holds; list: one rule asks a
# list of 50,000 blocks; limit: one limit for each of 10,000 addresses; made: what `edge make 7 LINES` writes.
# usage: bench/replay.sh [LINES [INPUT ..]]     needs: the built program, cargo, python3 and Debian's librust-serde-json-dev
# Prints for each input and program the best and the median of five runs, and the ratio of the two; the outputs are compared.
# WORKERS=1,2,4 bench/replay.sh .. measures `edge replay` beside itself with so many workers instead, which needs no plain Rust.
set -eu
here=$(cd "$(dirname "$0")" && pwd)
edge=$here/../crates/edge/out/edge
lines=${1:-1000000}
registry=${CARGO_REGISTRY_DIR:-/usr/share/cargo/registry}
plain=$here/plain/target/release/plain
tools="python3 cmp"
[ -n "${WORKERS:-}" ] || tools="cargo $tools"
for tool in $tools; do
  command -v "$tool" >/dev/null || { echo "bench: no $tool here; left out"; exit 0; }
done
[ -x "$edge" ] || { echo "bench: the program isn't built; left out"; exit 0; }
mkdir -p "$here/out"

if [ -z "${WORKERS:-}" ]; then
  ls -d "$registry"/serde_json-* >/dev/null 2>&1 || { echo "bench: no packaged serde_json here; left out"; exit 0; }
  (cd "$here/plain" && cargo build --release --offline --quiet \
    --config 'source.crates-io.replace-with="packaged"' \
    --config "source.packaged.directory=\"$registry\"")
fi

inputs="${*:2}"
[ -n "$inputs" ] || [ -z "${WORKERS:-}" ] || inputs="path mixed1000 limit"
[ -n "$inputs" ] || inputs="path three hundred mixed100 mixed1000 list limit made"

python3 - "$lines" "$here/out" $inputs <<'P'
import json, sys
n, folder, wanted = int(sys.argv[1]), sys.argv[2], sys.argv[3:]
others = ['r%02d' % k for k in range(99)]
expressions = {
    'path': 'http.request.uri.path eq "/p7"',
    'three': 'http.request.method eq "GET" and http.request.uri.path eq "/p7" and not http.request.headers["user-agent"][0] contains "bot"',
    'hundred': ' or '.join('http.request.uri.path eq "/%s"' % name for name in others + ['p7']),
}
mixed = [
    'http.request.uri.path eq "/n%d"',
    'http.host wildcard "*.n%d.example"',
    'http.request.headers["user-agent"][0] contains "n%d"',
    None,
    'starts_with(http.request.uri.path, "/n%d/") and http.request.method eq "POST"',
]

def mixed_rule(k):
    block = 11 * 2**24 + k * 256
    where = 'ip.src in {%s/24}' % '.'.join(str(block >> shift & 255) for shift in (24, 16, 8, 0))
    text = mixed[k % 5]
    return {'id': 'm%d' % k, 'expression': text % k if text else where, 'action': 'block'}

def firewall(rules):
    return {'id': 'fw', 'kind': 'zone', 'phase': 'http_request_firewall_custom', 'rules': rules}

def limits(most):
    limit = {'characteristics': ['ip.src'], 'period': 10, 'requests_per_period': most, 'mitigation_timeout': 10}
    rule = {'id': 'l1', 'expression': 'true', 'action': 'block', 'ratelimit': limit}
    return {'id': 'rl', 'kind': 'zone', 'phase': 'http_ratelimit', 'rules': [rule]}

def document(name):
    if name in expressions:
        assert len(expressions[name]) <= 4096
        return {'rulesets': [firewall([{'id': 'b1', 'expression': expressions[name], 'action': 'block'}])]}
    if name.startswith('mixed'):
        return {'rulesets': [firewall([mixed_rule(k) for k in range(int(name[5:]))])]}
    if name == 'list':
        blocks = ['%d.%d.%d.0/25' % (20 + (k >> 16), k >> 8 & 255, k & 255) for k in range(50000)]
        rule = {'id': 'b1', 'expression': 'ip.src in $blocked', 'action': 'block'}
        return {'lists': [{'name': 'blocked', 'kind': 'ip', 'items': blocks}], 'rulesets': [firewall([rule])]}
    return {'rulesets': [limits(5)]}

def requests(addresses):
    x, t = 7, 0
    for _ in range(n):
        x = (x * 6364136223846793005 + 1442695040888963407) % 2**64
        r = x >> 33
        t += (r // 128) % (2000 if addresses == 16 else 20)
        ip = '10.0.0.%d' % (r % 16) if addresses == 16 else '10.0.%d.%d' % (r % addresses >> 8, r % addresses & 255)
        yield '{"at":%d,"ip":"%s","method":"GET","target":"/p%d?q=%d","headers":[["host","a.example"],["user-agent","curl/8.5.0"],["accept","*/*"]]}\n' % (t, ip, (r // 16) % 8, r % 1000)

for name in wanted:
    if name == 'made':
        continue
    with open(folder + '/' + name + '.jsonl', 'w') as out:
        out.write(json.dumps({'deploy': document(name)}) + '\n')
        out.writelines(requests(10000 if name == 'limit' else 16))
P

measure() { # the input, and the word for the plain program, if it wants one
  echo "$1:"
  python3 - "$edge" "$plain" "$here/out" "$lines" "$@" <<'P'
import os, statistics, subprocess, sys, time
edge, plain, folder, lines = sys.argv[1], sys.argv[2], sys.argv[3], int(sys.argv[4])
input_name, word = sys.argv[5], sys.argv[6:]

def run(name, words):
    with open(folder + '/' + input_name + '.jsonl', 'rb') as given, open(folder + '/' + name + '.out', 'wb') as out:
        begun = time.perf_counter()
        child = subprocess.Popen(words, stdin=given, stdout=out)
        peak = 0
        while True:
            # The peak is read while the program runs: what wait4 tells of it includes the parent's memory before exec.
            peak = max(peak, peak_of(child.pid))
            done, status, used = os.wait4(child.pid, os.WNOHANG)
            if done:
                break
            time.sleep(0.002)
        took = time.perf_counter() - begun
        child.returncode = os.waitstatus_to_exitcode(status)
    return took, used.ru_utime + used.ru_stime, peak, child.returncode

def peak_of(pid):
    try:
        with open('/proc/%d/status' % pid) as told:
            for line in told:
                if line.startswith('VmHWM'):
                    return int(line.split()[1])
    except OSError:
        pass
    return 0

workers = [count for count in os.environ.get('WORKERS', '').split(',') if count]
programs = {'edge': [edge, 'replay'], 'plain': [plain] + word}
if workers:
    programs = {'edge': [edge, 'replay']}
    programs.update({'edge-' + count: [edge, 'replay', '--workers', count] for count in workers})
runs = {name: [] for name in programs}
for _ in range(5):
    for name, words in programs.items():
        runs[name].append(run(name, words))
for name in programs:
    took = sorted(r[0] for r in runs[name])
    cpu = sorted(r[1] for r in runs[name])
    print('%-6s best %.0f lines/s, median %.0f lines/s, CPU %.2f us/line (best), peak %d KiB, status %d' % (
        name, lines / took[0], lines / statistics.median(took), 1e6 * cpu[0] / lines, max(r[2] for r in runs[name]), runs[name][0][3]))

def ratio(slow, fast):
    times = {name: [r[0] for r in runs[name]] for name in (slow, fast)}
    return '%.2f, median %.2f' % (min(times[slow]) / min(times[fast]), statistics.median(times[slow]) / statistics.median(times[fast]))

for count in workers:
    print('ratio  best %s (above 1: %s workers are faster than one thread)' % (ratio('edge', 'edge-' + count), count))
if not workers:
    print('ratio  best %s (above 1: edge is faster)' % ratio('plain', 'edge'))
P
  [ -z "${WORKERS:-}" ] || return 0
  cmp "$here/out/edge.out" "$here/out/plain.out" && echo "the outputs are equal"
}

for name in $inputs; do
  case "$name" in
    path) measure path ;;
    mixed*) measure "$name" mixed ;;
    made) "$edge" make 7 "$lines" >"$here/out/made.jsonl" && measure made made ;;
    *) measure "$name" "$name" ;;
  esac
done
