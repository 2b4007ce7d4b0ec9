# A line of HAProxy's log in the format of haproxy.conf becomes a line of a trace.
#   jq -c -f haproxy.jq access.log > trace.jsonl
# HAProxy writes a dash for a header that isn't there, so a header that is a dash is left out too; so is a line that is no
# request (`<BADREQ>`). `sec` and `ms` are the beginning, `took` how many milliseconds it took.
def header($name; $value): if $value == "-" then empty else [$name, $value] end;

select(.method != "<BADREQ>" and .target != "-")
| (.sec * 1000 + (.ms | tonumber)) as $begin
| {
    at: $begin,
    ip,
    ssl: (.tls != "-"),
    method,
    target,
    version: (if .version == "HTTP/1.0" then .version else "HTTP/1.1" end),
    headers: [header("Host"; .host), header("User-Agent"; .agent), header("Referer"; .referer), header("Cookie"; .cookie)]
  } + (
    if .status >= 100 then {reply: {status, at: ($begin + .took)}} else {} end
  )
