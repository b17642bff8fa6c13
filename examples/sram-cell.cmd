input we d k w
watch w b m q z
| Write 1: the driven bit lines are stronger than the cell.
set we=1 d=1 k=0 w=1
phase
| The cell holds.
set we=0 w=0
phase
| Read: both bit lines are charged to 1, and the cell pulls one of them down.
charge b=1 m=1
set w=1
phase
expect b=1 m=0 q=1 z=0
