#!/usr/bin/env bash
# Shows that the converters of examples/logs fit real servers: starts each one that is installed on a loopback port of its
# own, sends it the thirty requests of examples/logs/requests.txt, makes a trace of its log, replays that under rules.json
# and compares with wanted.output, where the moments at which limits end are left out.
# usage: scripts/logs.sh [FOLDER]     FOLDER keeps the logs and traces; EDGE names another program than the one built here
set -u
cd "$(dirname "$0")/.." || exit 1
edge=${EDGE:-$PWD/crates/edge/out/edge} examples=$PWD/examples/logs kept=${1:-}
[ -x "$edge" ] || { echo "logs: the program isn't built; left out"; exit 0; }
for tool in curl jq python3; do
  command -v $tool >/dev/null || { echo "logs: $tool isn't installed; left out"; exit 0; }
done
work=$(mktemp -d) || exit 1
chmod 755 "$work" # servers may give up root
server=
trap 'stop; rm -rf "$work"' EXIT
trap 'exit 130' INT TERM
failed=0

free_port() { python3 -c 'import socket; s = socket.socket(); s.bind(("127.0.0.1", 0)); print(s.getsockname()[1])'; }

# Ends the server that was started here, and waits for it.
stop() {
  [ -n "$server" ] || return 0
  kill "$server" 2>/dev/null
  wait "$server" 2>/dev/null
  server=
}

# The parts of a configuration that an operator takes over, without its comments.
part() { grep -v '^#' "$examples/$1.conf"; }

# Each server answers 401 to a login and 200 to everything else, and logs into $folder/log; it stays in the foreground.
start_nginx() {
  cat >"$folder/nginx.conf" <<END
daemon off; pid $folder/pid; error_log $folder/error; events {}
http {
$(part nginx)
  access_log $folder/log edge;
  client_body_temp_path $folder/body; proxy_temp_path $folder/proxy; fastcgi_temp_path $folder/fastcgi;
  uwsgi_temp_path $folder/uwsgi; scgi_temp_path $folder/scgi; merge_slashes off;
  server { listen 127.0.0.1:$port; location = /login { return 401; } location / { return 200 "ok"; } }
}
END
  nginx -c "$folder/nginx.conf" -e "$folder/error" &
}

start_caddy() {
  cat >"$folder/Caddyfile" <<END
{
	admin off
	auto_https off
	servers {
		log_credentials
	}
}
http://:$port {
	bind 127.0.0.1
$(part caddy | sed "s|access.log|$folder/log|")
	respond /login 401
	respond 200
}
END
  HOME=$folder XDG_DATA_HOME=$folder XDG_CONFIG_HOME=$folder caddy run --config "$folder/Caddyfile" --adapter caddyfile 2>"$folder/error" &
}

start_haproxy() {
  cat >"$folder/haproxy.cfg" <<END
global
  log stdout format raw local0 info
defaults
  mode http
  timeout client 30s
  timeout server 30s
  timeout connect 5s
frontend edge
  bind 127.0.0.1:$port
  log global
$(part haproxy)
  http-request return status 401 if { path /login }
  http-request return status 200 content-type text/plain string ok
END
  haproxy -db -f "$folder/haproxy.cfg" >"$folder/log" 2>"$folder/error" &
}

# Waits until the port answers, at most a minute.
ready() {
  for _ in $(seq 300); do
    if (exec 3<>"/dev/tcp/127.0.0.1/$port") 2>/dev/null; then return 0; fi
    kill -0 "$server" 2>/dev/null || return 1
    sleep 0.2
  done
  return 1
}

send() { # CLIENT METHOD TARGET HOST AGENT REFERER COOKIE
  local options=(--interface "127.0.0.$1" --http1.1 --path-as-is --globoff --silent --output /dev/null --max-time 60)
  options+=(-H "Host: $4" -A "$5")
  if [ "$2" = HEAD ]; then options+=(--head); else options+=(--request "$2"); fi
  if [ -n "$6" ]; then options+=(--referer "$6"); fi
  if [ -n "$7" ]; then options+=(--cookie "$7"); fi
  curl "${options[@]}" "http://127.0.0.1:$port$3"
}

send_all() {
  while IFS='|' read -r -u 4 client method target host agent referer cookie; do
    send "$client" "$method" "$target" "$host" "$agent" "$referer" "$cookie" ||
      echo "logs: $name: no answer to $method $target"
  done 4< <(grep -v '^#' "$examples/requests.txt")
}

# Waits until the log has a line for each request, at most ten seconds.
logged() {
  for _ in $(seq 50); do
    [ "$(grep -c '"target"\|"uri"' "$folder/log")" -ge "$(grep -vc '^#' "$examples/requests.txt")" ] && return
    sleep 0.2
  done
}

answer() {
  { printf '{"deploy":'; tr -d '\n' <"$examples/rules.json"; echo '}'; cat "$folder/trace"; } |
    "$edge" replay | sed 's/over@[0-9]*/over@UNTIL/g'
}

try() {
  name=$1 folder=$work/$1 port=$(free_port)
  command -v "$name" >/dev/null || { echo "logs: $name isn't installed; left out"; return; }
  mkdir "$folder"
  "start_$name"
  server=$!
  if ! ready; then echo "logs: $name didn't start:"; tail -n 5 "$folder/error"; failed=1; stop; return; fi
  send_all
  logged
  stop
  jq -c -f "$examples/$name.jq" "$folder/log" >"$folder/trace"
  if [ -n "$kept" ]; then mkdir -p "$kept" && cp "$folder/log" "$kept/$name.log" && cp "$folder/trace" "$kept/$name.trace.jsonl"; fi
  answer >"$folder/output"
  if diff "$examples/wanted.output" "$folder/output"; then
    echo "logs: $name: $(wc -l <"$folder/trace") requests, answered as wanted"
  else
    echo "logs: $name: another answer than wanted"
    failed=1
  fi
}

for each in nginx caddy haproxy; do try $each; done
exit $failed
