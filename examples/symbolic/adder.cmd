| All sums of two numbers of four bits and a carry, in one run: the operands' bits in turn, the highest first.
variables $a3 $b3 $a2 $b2 $a1 $b1 $a0 $b0 $cin
vector a a{3:0}
vector b b{3:0}
vector sum cout s{3:0}
input a b cin
watch sum
set a=$a{3:0} b=$b{3:0} cin=$cin
phase
| What an adder is: a carry is the majority of two bits and the carry before, a sum bit is their parity.
let $c1 $a0&$b0|$cin&($a0^$b0)
let $c2 $a1&$b1|$c1&($a1^$b1)
let $c3 $a2&$b2|$c2&($a2^$b2)
let $c4 $a3&$b3|$c3&($a3^$b3)
expect sum=$c4,$a3^$b3^$c3,$a2^$b2^$c2,$a1^$b1^$c1,$a0^$b0^$cin
