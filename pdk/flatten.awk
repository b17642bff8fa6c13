# flatten.awk: writes the circuit of a SPICE deck as a netlist, for the requests that take no deck: why, faults, batch, check, groups.
#   awk -v one=VPWR -v zero=VGND -v gates=2 -f pdk/flatten.awk DECK > NET
# The transistors have the same order, so the same numbers, and the nodes the same names as under `sim-spice DECK`. Behind a transistor
# stands its path, from the outermost call to its card.
#   one=A,B    these nodes are Vdd: lines `= Vdd a`
#   zero=A,B   these nodes are Gnd
#   gates=K    each node that is the gate of a transistor gets size K, since it holds more charge than a node between two transistors
# A deck that sim-spice refuses isn't refused here in all cases: run that first.

function fail(text) { print "deck line " text > "/dev/stderr"; failed = 1; exit 1 }

# The card that is read so far is whole: keeps it at its subcircuit, or at the deck's own cards, whose name is "".
function close_card(   first, i, count, end) {
    if (card == "") return
    count = split(card, word, " ")
    card = ""
    first = substr(word[1], 1, 1)
    if (word[1] == ".subckt") {
        open = word[2]
        ports[open] = ""
        known[open] = 1
        for (i = 3; i <= count && word[i] !~ /=/ && word[i] != "params:"; i++) ports[open] = ports[open] " " word[i]
    } else if (word[1] == ".ends") open = ""
    else if (word[1] == ".end") ended = 1
    else if (word[1] == ".model") {
        sub(/\(.*/, "", word[3])
        if (!(word[2] in kind) && word[3] == "nmos") kind[word[2]] = "n"
        if (!(word[2] in kind) && word[3] == "pmos") kind[word[2]] = "p"
    } else if (word[1] == ".global") {
        for (i = 2; i <= count; i++) stays[word[i]] = 1
    } else if (first == "m" || first == "x") {
        end = ++cards[open]
        text[open, end] = word[1]
        for (i = 2; i <= count; i++) text[open, end] = text[open, end] " " word[i]
        line_of[open, end] = card_line
    }
}

# The node of a name in a call whose path is `path`; the ports of the call are in `node` under its depth.
function node_of(name, path, depth) {
    if ((depth, name) in node) return node[depth, name]
    if (name == "0") return "Gnd"
    if (path == "" || name in stays) return name
    return path "." name
}

function write_transistor(fields, count, path, depth, at,   type, gate, source, drain, strength, i) {
    type = fields[6] in kind ? kind[fields[6]] : substr(fields[6], 1, 1)
    if (type !~ /^[npd]$/) fail(at ": model " fields[6])
    for (i = 7; i <= count; i++) if (fields[i] ~ /^strength=/) strength = " g=strength:" substr(fields[i], 10)
    drain = node_of(fields[2], path, depth)
    gate = node_of(fields[3], path, depth)
    source = node_of(fields[4], path, depth)
    if (!(gate in is_gate) && gate !~ /^(Gnd|gnd!?|vdd!?)$/) { is_gate[gate]; gate_names[++gate_count] = gate }
    lines[++line_count] = type " " gate " " source " " drain strength " " (path == "" ? "" : path ".") fields[1]
}

# Writes the transistors of a subcircuit, or of the deck's own cards, under the nodes of the call.
function expand(name, path, depth,   i, j, count, last, fields, list, nodes) {
    if (depth > 32) fail(name ": more than 32 calls inside one another")
    for (i = 1; i <= cards[name]; i++) {
        count = split(text[name, i], fields, " ")
        if (substr(fields[1], 1, 1) == "m") {
            write_transistor(fields, count, path, depth, line_of[name, i])
            continue
        }
        for (last = 2; last < count && fields[last + 1] !~ /=/ && fields[last + 1] != "params:"; last++) ;
        if (!(fields[last] in known)) fail(line_of[name, i] ": no subcircuit " fields[last])
        nodes = split(ports[fields[last]], list, " ")
        if (nodes != last - 2) fail(line_of[name, i] ": " last - 2 " nodes for the " nodes " ports of " fields[last])
        for (j = 1; j <= nodes; j++) list[j] = list[j] " " node_of(fields[j + 1], path, depth)
        call(fields[last], (path == "" ? "" : path ".") fields[1], depth + 1, list, nodes)
    }
}

# Expands a call: the pairs of port and node count while it is open.
function call(name, path, depth, list, nodes,   j, pair) {
    for (j = 1; j <= nodes; j++) { split(list[j], pair, " "); node[depth, pair[1]] = pair[2] }
    expand(name, path, depth)
    for (j = 1; j <= nodes; j++) { split(list[j], pair, " "); delete node[depth, pair[1]] }
}

BEGIN { stays["vdd"]; stays["vdd!"]; stays["gnd"]; stays["gnd!"] }

NR == 1 || ended { next }
{
    sub(/\r$/, "")
    $0 = tolower($0)
    if ($1 == "" || $1 ~ /^[*$;]/) next
    sub(/[ \t][$;].*/, "")
    if (substr($1, 1, 1) == "+") { sub(/^[ \t]*\+/, ""); card = card " " $0; next }
    close_card()
    card = $0
    card_line = NR
}

END {
    if (failed) exit 1
    close_card()
    expand("", "", 0)
    print "| units: 100 tech: deck format: MIT"
    count = split(tolower(one), list, ",")
    for (i = 1; i <= count; i++) { print "= Vdd " list[i]; is_supply[list[i]] }
    count = split(tolower(zero), list, ",")
    for (i = 1; i <= count; i++) { print "= Gnd " list[i]; is_supply[list[i]] }
    if (gates) for (i = 1; i <= gate_count; i++) if (!(gate_names[i] in is_supply)) print "A " gate_names[i] " size:" gates
    for (i = 1; i <= line_count; i++) print lines[i]
}
