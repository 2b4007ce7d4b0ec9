#!/usr/bin/env bash
# Measures `edge check` on three documents: 1,000 rules of mixed conditions, 10,000 of them, and a list of 50,000 blocks.
# Beside it stand plain Rust that reads the same JSON into typed structs (serde_json with its derive), which checks no
# condition, and `nginx -t` and `haproxy -c` on as many rules and as long a list, where they are installed.
# usage: bench/check.sh      needs: the built program, cargo, python3 and Debian's librust-serde-json-dev, librust-serde-derive-dev
# Prints for each program the best and the median of five runs, and the peak memory.
set -eu
here=$(cd "$(dirname "$0")" && pwd)
edge=$here/../crates/edge/out/edge
registry=${CARGO_REGISTRY_DIR:-/usr/share/cargo/registry}
for tool in cargo python3; do
  command -v "$tool" >/dev/null || { echo "check: no $tool here; left out"; exit 0; }
done
[ -x "$edge" ] || { echo "check: the program isn't built; left out"; exit 0; }
[ "$(printf '{}' | "$edge" check 2>/dev/null)" = 'ok 0 0' ] || { echo "check: the program doesn't take this command yet; left out"; exit 0; }
ls -d "$registry"/serde_derive-* >/dev/null 2>&1 || { echo "check: no packaged serde_derive here; left out"; exit 0; }

(cd "$here/documents" && cargo build --release --offline --quiet \
  --config 'source.crates-io.replace-with="packaged"' \
  --config "source.packaged.directory=\"$registry\"")
mkdir -p "$here/out"

python3 - "$edge" "$here/documents/target/release/documents" "$here/out" <<'P'
import json, os, shutil, statistics, subprocess, sys, time
edge, plain, folder = sys.argv[1:4]

def block(k):
    return '%d.%d.%d.0/24' % (11 + k // 65536, k // 256 % 256, k % 256)

# Conditions of five kinds, each short enough for 10,000 of them to stay below a mebibyte.
def condition(k):
    return ['http.host eq "h%d"' % k,
            'http.user_agent contains "b%d"' % k,
            'ip.src in {%s}' % block(k),
            'http.request.uri.path wildcard "/p%d/*"' % k,
            'len(http.request.uri.query) gt %d' % k][k % 5]

def rules(n):
    def rule(k):
        return {'id': 'r%d' % k, 'expression': condition(k), 'action': 'block'}
    def ruleset(first):
        return {'id': 's%d' % first, 'kind': 'custom', 'phase': 'http_request_firewall_custom',
                'rules': [rule(k) for k in range(first, min(n, first + 1000))]}
    return {'rulesets': [ruleset(first) for first in range(0, n, 1000)]}

documents = {
    '1,000 rules': rules(1000),
    '10,000 rules': rules(10000),
    'a list of 50,000 blocks': {'lists': [{'name': 'bad', 'kind': 'ip', 'items': [block(k) for k in range(50000)]}]},
}

def written(name, text):
    path = os.path.join(folder, name)
    with open(path, 'w') as out:
        out.write(text)
    return path

def nginx_of(document):
    lines = ['pid %s/nginx.pid;' % folder, 'error_log stderr crit;', 'events {}', 'http {', 'access_log off;',
             'map_hash_max_size 65536;', 'variables_hash_max_size 4096;']
    for found in document.get('lists', []):
        lines += ['geo $bad {', 'default 0;'] + ['%s 1;' % item for item in found['items']] + ['}']
    lines.append('server { listen 127.0.0.1:18080;')
    if 'lists' in document:
        lines.append('if ($bad) { return 403; }')
    for k in range(sum(len(found['rules']) for found in document.get('rulesets', []))):
        lines.append(['if ($http_host = "h%d") { return 403; }' % k,
                      'if ($http_user_agent ~ "b%d") { return 403; }' % k,
                      'if ($remote_addr ~ "^11\\.0\\.%d\\.") { return 403; }' % (k % 256),
                      'if ($uri ~ "^/p%d/") { return 403; }' % k,
                      'if ($args ~ "^.{%d}") { return 403; }' % (1 + k % 200)][k % 5])
    lines += ['}', '}', '']
    return written('nginx.conf', '\n'.join(lines))

def haproxy_of(document):
    lines = ['defaults', 'mode http', 'timeout client 1s', 'timeout server 1s', 'timeout connect 1s', 'frontend f', 'bind 127.0.0.1:18081']
    for found in document.get('lists', []):
        lines.append('http-request deny if { src -f %s }' % written('blocks.txt', '\n'.join(found['items']) + '\n'))
    for k in range(sum(len(found['rules']) for found in document.get('rulesets', []))):
        lines.append('http-request deny if { %s }' % ['hdr(host) h%d' % k, 'hdr_sub(user-agent) b%d' % k, 'src %s' % block(k),
                     'path_beg /p%d/' % k, 'query,length gt %d' % k][k % 5])
    return written('haproxy.cfg', '\n'.join(lines) + '\n')

def run(words, given):
    with open(given, 'rb') as text:
        begun = time.perf_counter()
        child = subprocess.Popen(words, stdin=text, stdout=subprocess.PIPE, stderr=subprocess.PIPE)
        said, errors = child.communicate()
        took = time.perf_counter() - begun
    return took, child.returncode, said.decode().strip(), errors.decode().strip()

# The peak is read from a further run, by way of GNU time where it is there.
def peak(words, given):
    if not shutil.which('/usr/bin/time'):
        return 0
    with open(given, 'rb') as text:
        child = subprocess.run(['/usr/bin/time', '-f', '%M'] + words, stdin=text, capture_output=True)
    return int(child.stderr.decode().split()[-1])

for title, document in documents.items():
    given = written('document.json', json.dumps(document))
    size = os.path.getsize(given)
    assert size <= 1048576, size
    print('%s (%d bytes):' % (title, size))
    programs = {'edge check': [edge, 'check'], 'plain Rust': [plain]}
    if shutil.which('nginx'):
        programs['nginx -t'] = ['nginx', '-q', '-t', '-p', folder, '-c', nginx_of(document)]
    if shutil.which('haproxy'):
        programs['haproxy -c'] = ['haproxy', '-c', '-q', '-f', haproxy_of(document)]
    runs = {name: [] for name in programs}
    for _ in range(5):
        for name, words in programs.items():
            runs[name].append(run(words, given))
    for name, words in programs.items():
        took = [one[0] for one in runs[name]]
        print('  %-10s best %.1f ms, median %.1f ms, peak %d KiB, status %d%s' % (
            name, 1e3 * min(took), 1e3 * statistics.median(took), peak(words, given), runs[name][0][1],
            ', ' + runs[name][0][2] if runs[name][0][2] else ''))
        if runs[name][0][1] != 0:
            print('    ' + runs[name][0][3].replace('\n', '\n    ')[:300])
P
