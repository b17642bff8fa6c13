input en
watch en a b c
| While en is 0 the ring rests.
set en=0
phase
| With en at 1 it never does. After the limit what still moves is joined to X, and the line has the mark.
limit 20
set en=1
phase
| Steps show the swing.
set en=0
phase
set en=1
step
step
step
step
