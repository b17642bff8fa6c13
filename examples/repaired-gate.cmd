input a
watch a out
set a=1
phase
report
| The driver, transistor 2, is made stronger. The states stay, and one text of a group is new.
strength 2 2
phase
expect out=0
set a=0
phase
report
