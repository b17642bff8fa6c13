# blif_to_deck.awk: a BLIF file of gates becomes a SPICE deck of calls.
#   awk -f blif_to_deck.awk CELLS BLIF
# CELLS is the library of cells as a SPICE file, whose cards .subckt say in which order a cell has its ports; BLIF is what
# yosys writes with `write_blif -gates -false - gnd -true - vdd`. Ports vdd and gnd of a cell are the rails. A name that
# begins with $ would end its line in a deck, so each $ becomes _. The deck's first line, its title, is not written.
FNR == 1 { file++ }
file == 1 {
    if (tolower($1) == ".subckt") { ports[$2] = ""; for (i = 3; i <= NF; i++) ports[$2] = ports[$2] " " $i; open = $2 }
    next
}
$1 == ".gate" || $1 == ".subckt" {
    if (!($2 in ports)) { print "no cell " $2 " in the library" > "/dev/stderr"; failed = 1; exit 1 }
    split("", net)
    for (i = 3; i <= NF; i++) { at = index($i, "="); net[substr($i, 1, at - 1)] = substr($i, at + 1) }
    net["vdd"] = "vdd"; net["gnd"] = "gnd"
    count = split(ports[$2], port, " ")
    card = "x" ++calls
    for (i = 1; i <= count; i++) {
        if (!(port[i] in net)) net[port[i]] = "nc" calls "_" port[i]
        card = card " " net[port[i]]
    }
    gsub(/\$/, "_", card)
    print card " " $2
}
