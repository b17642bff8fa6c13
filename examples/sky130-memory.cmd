| The supplies are nodes like others in a deck: held by the script, in small letters. VPB and VNB have no transistor, so aren't nodes.
input vpwr vgnd vpwrio
set vpwr=1 vgnd=0 vpwrio=1
input row0 row1 en we d preb
watch row0 row1 we d bl br xc0.q xc1.q out outio
| A bit line holds more charge than what a cell joins to it.
store bl 2
store br 2
set row0=0 row1=0 en=0 we=0 d=0 preb=1
phase
| Write 1 into cell 0.
set row0=1 en=1 we=1 d=1
phase
set en=0 we=0 row0=0
phase
expect xc0.q=1 xc0.qb=0
| Write 0 into cell 1.
set row1=1 en=1 we=1 d=0
phase
set en=0 we=0 row1=0
phase
expect xc0.q=1 xc1.q=0 xc1.qb=1
| Precharge, and read cell 0: BR is pulled down.
set preb=0
phase
set preb=1
phase
set row0=1 en=1
phase
expect bl=1 br=0 out=1 outio=1
set en=0 row0=0
phase
| Precharge, and read cell 1: BL is pulled down.
set preb=0
phase
set preb=1
phase
set row1=1 en=1
phase
expect bl=0 br=1 out=0 outio=0
| A read with the precharge still on doesn't turn the cell over.
set preb=0
phase
expect xc0.q=1 xc1.q=0
| Write 1 into cell 1, over its 0.
set preb=1 we=1 d=1
phase
set en=0 we=0 row1=0
phase
expect xc0.q=1 xc1.q=1 xc1.qb=0
