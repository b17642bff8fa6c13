| The bus is written and left alone; then phi opens, and the latch takes what the bus holds as charge.
input we in phi
watch we in phi bus st q
set we=1 in=1 phi=0
phase
set we=0
phase
set phi=1
phase
set phi=0
phase
set we=1 in=0
phase
set we=0 phi=1
phase
expect st=0 q=1
