# An object for each host that sent records, the host with most records first; with both sides
# protected, by the lines of the first engine:
#   normview --json IN OUT REPORT | jq -cn -f talkers.jq

# The names in the output of normview; where it stopped, so does this filter.
def line: if .event == "stop" then error("normview: " + .reason) else select(.event == "record") end
  | {host: .src_ip, by, verdict, length};

reduce (inputs | line | select(.host and .by == "first")) as $line ({};
  .[$line.host] |= {
    host: $line.host,
    records: (.records + 1),
    dropped: (.dropped + (if $line.verdict == "drop" then 1 else 0 end)),
    changed: (.changed + (if $line.verdict == "fix" then 1 else 0 end)),
    octets: (.octets + $line.length)
  })
| [.[]] | sort_by(-.records, .host)[]
