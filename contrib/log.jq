# Makes a line of JSON of each line of a log of cmdwall:   jq -c -R -f log.jq LOG
# The lines are those of docs/LOG.md and docs/REVIEW.md. One that is none has "unread" in place of "event".
def number: if test("^-?[0-9]+$") then tonumber else . end;
def act(from): {code: (.[from + 1] | number), group: (.[from + 3] | number), point: (.[from + 5] | number),
    value: (.[from + 7] | if . == "-" then null else number end)};
def counts: {admitted: (.[5] | number), refused: (.[7] | number)};
. as $line
| if test("^[0-9]+[.][0-9]{6} [0-9.]+:[0-9]+ [a-z0-9_-]+ [a-z]+( |$)") then
    split(" ") as $w
    | ($w[1] | split(":")) as $at
    | {time: ($w[0] | tonumber), client: $at[0], port: ($at[1] | tonumber), asset: $w[2], event: $w[3]}
    + ($w | if .[3] == "refuse" then {rule: .[4], reason: .[5]} + act(6) + {mark: .[14], hex: .[15]}
        elif .[3] == "admit" then {rule: .[4]} + act(5) + {hex: .[13]}
        elif .[3] == "stray" then {side: .[4], why: .[5]}
        elif .[3] == "partial" then {side: .[4], left: (.[5] | number)}
        elif .[3] == "cut" then {side: .[4], why: .[5]} + (if length > 6 then {numbers: (.[6:] | map(number))} else {} end)
        elif .[3] == "close" or .[3] == "lost" or .[3] == "silent" or .[3] == "again" then counts
        elif .[3] == "stands" then {standing: (.[4] | number), admitted: (.[6] | number), refused: (.[8] | number)}
        elif .[3] == "stranger" or .[3] == "away" then {came: (.[5] | number)}
        elif .[3] == "broken" then {why: .[4]}
        elif .[3] == "conflict" or .[3] == "gap" then {position: (.[4] | number)}
        elif .[3] == "begins" then {where: .[4]}
        elif .[3] == "open" or .[3] == "listen" or .[3] == "gone" or .[3] == "unreached" or .[3] == "nomemory" then {}
        else {event: null, unread: $line} end)
    | if .event == null then del(.event) else . end
  else {unread: $line} end
