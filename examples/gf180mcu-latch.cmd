| VDD is a rail by its name, VSS isn't. VNW and VPW have no transistor, so they aren't nodes.
input vss d e en0 en1 a
watch d e q en0 en1 a bus out
set vss=0
set d=1 e=1 en0=0 en1=0 a=0
phase
expect q=1
| The latch holds.
set e=0
phase
set d=0
phase
expect q=1
| It drives the bus, and the keeper holds it.
set en0=1
phase
set en0=0
phase
expect bus=0 out=1
| The other buffer wins against the keeper.
set en1=1
phase
set en1=0
phase
expect bus=1 out=0
| The latch lets the new value through.
set e=1
phase
set e=0
phase
expect q=0
| Both buffers at once, for unlike values: the bus is unknown.
set en0=1 en1=1 a=1
phase
expect bus=X
