| Numbers of four bits are added. A vector names the nodes of a bus, the highest bit first.
vector a a{3:0}
vector b b{3:0}
vector sum cout s{3:0}
input a b cin
watch a b cin sum
| Values are decimal, hexadecimal, or a letter for each node, or one letter for all of them.
set a=%d9 b=%d5 cin=0
phase
expect sum=%d14
set a=%hF b=0001
phase
expect sum=%h10
set b=1 cin=1
phase
expect sum=%d31 cout=1
| A bit that isn't known: the highest bits of the sum don't depend on it.
set a=010X b=0000 cin=0
phase
expect sum=0010-
show sum s0
