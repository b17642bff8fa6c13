input a
watch a out
set a=0
phase
set a=1
phase
set a=X
phase
