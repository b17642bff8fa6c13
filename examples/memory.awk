# A memory of 256 words of one bit, or of so many as -v words=.. says, in cells of three transistors:
# awk -f memory.awk > memory.sim makes the netlist. `in` is the complement of `data`. A word's write line joins its node
# with `in`; its read line lets this node pull `out` down.
BEGIN {
    if (!words) words = 256
    print "p data Vdd in"
    print "n data Gnd in"
    print "p precharge Vdd out"
    print "A out size:2"
    for (word = 0; word < words; word++) {
        print "n write" word " in keep" word
        print "n keep" word " Gnd low" word
        print "n read" word " low" word " out"
    }
}
