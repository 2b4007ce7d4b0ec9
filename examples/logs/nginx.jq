# A line of nginx's log in the format `edge` of nginx.conf becomes a line of a trace.
#   jq -c -f nginx.jq access.log > trace.jsonl
# A line without a method is no request (nginx couldn't read one) and is left out. The log can't tell an empty header from
# none; both are left out. `msec` is the end of the request, `took` how long it took.
def header($name; $value): if $value == "" then empty else [$name, $value] end;

select(.method != "" and .target != "")
| (.msec | tonumber) as $ended
| (.status | tonumber) as $status
| {
    at: (($ended - (.took | tonumber)) * 1000 | round),
    ip,
    ssl: (.https == "on"),
    method,
    target,
    version: (if .version == "HTTP/1.0" then .version else "HTTP/1.1" end),
    headers: [header("Host"; .host), header("User-Agent"; .agent), header("Referer"; .referer), header("Cookie"; .cookie)]
  }
| if $status >= 100 then .reply = {status: $status, at: ($ended * 1000 | round)} else . end
