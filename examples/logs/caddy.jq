# A line of Caddy's own JSON log becomes a line of a trace.
#   jq -c -f caddy.jq access.log > trace.jsonl
# The log has all headers of request and reply, but not the order of their names, which is that of their bytes here, after
# the host. Cookies are told only where the option `log_credentials` stands in the block `servers`. `ts` is the end of the
# request, `duration` how long it took, both in seconds.
def pairs: to_entries | sort_by(.key) | map(.key as $name | .value[] | [$name, .]);

select(.request.method != null and .status != null)
| {
    at: ((.ts - .duration) * 1000 | round),
    ip: .request.remote_ip,
    ssl: (.request.tls != null),
    method: .request.method,
    target: .request.uri,
    version: (if .request.proto == "HTTP/1.0" then .request.proto else "HTTP/1.1" end),
    headers: ([["Host", .request.host]] + (.request.headers | pairs))
  } + (
    if .status >= 100 then {reply: {status, headers: (.resp_headers | pairs), at: (.ts * 1000 | round)}} else {} end
  )
