| All sums of two numbers of four bits and a carry, in one run: the operands' bits in turn, the highest first.
variables $a3 $b3 $a2 $b2 $a1 $b1 $a0 $b0 $cin
vector a a{3:0}
vector b b{3:0}
vector sum cout s{3:0}
input a b cin
watch sum
set a=$a{3:0} b=$b{3:0} cin=$cin
phase
| A carry that was forgotten: s0 is taken for the parity of a0 and b0 alone.
expect s0=$a0^$b0
