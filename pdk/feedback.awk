# feedback.awk: writes lines of a script that make weak what feeds back in clocked latches, from a netlist.
#   awk -f pdk/feedback.awk NET > weak.cmd
# A latch's node N is driven by its input while the clock is open, and by its own value while it is closed. While both phases of the clock
# overlap both drive it. The value that feeds back should lose then, so its transistors get strength 1: `strength K 1`. They are
#   - clocked inverters: an n and a p at N behind which, over nodes that are no gates, a transistor has a gate that N's value drives;
#   - pass gates: an n and a p with the ends N and F, when F is driven by what N's value drives.
# A gate's value drives the ends of its transistor. Supplies have to be rails: take a netlist that joins them (flatten.awk, one and zero).
# Two inverters that feed each other without a clock, as in a keeper, are left as they are: which one is weak isn't seen.

function node_of(name,   low) {
    low = tolower(name)
    if (low ~ /^(vdd|gnd)!?$/) return "-"
    return name in same ? same[name] : name
}

function note_end(node, k) {
    if (node != "-") at[node] = at[node] " " k
}

# Whether a transistor has the two nodes among its ends, and says the other end of transistor k than the node.
function other_end(k, node) { return first[k] == node ? second[k] : first[k] }

# The nodes that the value of a node drives: the ends of the transistors with this gate.
function driven_by(node, found,   count, list, i) {
    if (!(node in gates)) return
    count = split(gates[node], list, " ")
    for (i = 1; i <= count; i++) {
        if (first[list[i]] != "-") found[first[list[i]]] = 1
        if (second[list[i]] != "-") found[second[list[i]]] = 1
    }
}

# Whether behind transistor k, seen from a node, a transistor has a gate of `values`, over at most three nodes that are no gates.
function has_value(k, from, values, depth,   node, count, list, i) {
    if (gate[k] in values) return 1
    node = other_end(k, from)
    if (node == "-" || node == start || node in gates || depth == 3) return 0
    count = split(at[node], list, " ")
    if (count > 4) return 0
    for (i = 1; i <= count; i++) if (list[i] != k && has_value(list[i], node, values, depth + 1)) return 1
    return 0
}

$1 == "=" {
    if (node_of($2) == "-") same[$3] = "-"
    else same[$3] = node_of($2)
    next
}

/^[nped] / {
    k++
    kind[k] = $1 == "e" ? "n" : $1
    gate[k] = node_of($2); first[k] = node_of($3); second[k] = node_of($4)
    if (gate[k] != "-") gates[gate[k]] = gates[gate[k]] " " k
    if (first[k] != second[k]) { note_end(first[k], k); note_end(second[k], k) }
    if (first[k] != "-" && !(first[k] in seen)) { seen[first[k]]; names[++nodes] = first[k] }
    if (second[k] != "-" && !(second[k] in seen)) { seen[second[k]]; names[++nodes] = second[k] }
}

END {
    for (i = 1; i <= nodes; i++) {
        start = names[i]
        count = split(at[start], list, " ")
        if (!(start in gates) || count > 40) continue
        split("", direct); split("", later); split("", weak); split("", kinds)
        driven_by(start, direct)
        delete direct[start]
        for (value in direct) driven_by(value, later)
        delete later[start]
        for (j = 1; j <= count; j++) {
            t = list[j]; far = other_end(t, start)
            if (far == "-" || gate[t] == start) continue
            is_pass = 0
            for (m = 1; m <= count; m++) if (kind[list[m]] != kind[t] && other_end(list[m], start) == far) is_pass = 1
            if (is_pass && far in later) pass[t] = 1
            if (!is_pass && !(far in gates) && has_value(t, start, direct, 0)) { weak[t] = 1; kinds[kind[t]] = 1 }
        }
        if ("n" in kinds && "p" in kinds) for (t in weak) pass[t] = 1
    }
    for (t = 1; t <= k; t++) if (t in pass) print "strength " t " 1"
}
