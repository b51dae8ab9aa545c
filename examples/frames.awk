# The frames of a saved state as a tree: what runs, what waits, and where.
#   ppm show < saved | awk -f frames.awk
# Fields of a line: 1 word, 2 value, 3 of. In words that no program left frames may lead to no root: these are counted at the end.

# the address after `@`, without a capsule, a side or a part
function address(text) { sub(/^.*@/, "", text); sub(/\..*/, "", text); return text + 0 }
# the number after a point
function number(text) { sub(/^[a-z]+\./, "", text); return text + 0 }
function say(at, text) { notes[at] = notes[at] "; " text }
function wait(branch, text) { waits[branch] = waits[branch] "; " text }

$1 == "finish" { print "finish " $2 }
$1 ~ /^carry\./ && $3 == "alive" { carrier[$2] = carrier[$2] (carrier[$2] == "" ? "p" : " and p") number($1) }
$1 ~ /^restart\./ { restart[number($1)] = $2; where[number($1)] = $3 }
$1 ~ /^message\./ { message[number($1)] = $3 }
$1 ~ /^entry\./ && $2 ~ /^Job/ && $3 ~ /@/ { split($1, parts, "."); wait($3, "waits in the deque of place " parts[2]) }
$1 ~ /@/ { order[++count] = $1; above[$1] = $3 }
END {
    for (place = 0; place in restart; place++) {
        who = "place " place " of " ((place in carrier) ? carrier[place] : "nobody")
        # a message stays after it was used: it is one only of a theft under way
        if (restart[place] ~ /^(Steal|Check)/ && message[place] ~ /@/) wait(message[place], who " tries to take it, at " restart[place])
        else if (where[place] ~ /@/) say(address(where[place]), who " at " restart[place])
    }
    for (i = 1; i <= count; i++) if (above[order[i]] == "-") walk(order[i], 0)
    if (told < count) print count - told " frames and fork blocks lead to no root"
}

function walk(name, depth,   i) {
    told++
    printf "%*s%s%s%s\n", depth * 2, "", name, waits[above[name]], notes[address(name)]
    for (i = 1; i <= count; i++) if (above[order[i]] ~ /@/ && address(above[order[i]]) == address(name) && order[i] != name) walk(order[i], depth + 1)
}
