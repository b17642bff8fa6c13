input g
watch g bus cell
| The larger node keeps its state, and the smaller one takes it over.
charge bus=1 cell=0
set g=1
phase
| Between nodes of one size unlike charges give X.
set g=0
store bus 1
charge bus=1 cell=0
set g=1
phase
