input g in
watch g in out
charge out=0
| While the gate is X the switch may conduct or not. That doesn't matter between equal states.
set in=0
phase
| Between unlike states it does.
set in=1
phase
set g=1
phase
| An open switch lets the node keep its charge.
set g=0 in=0
phase
