| What an inverter shows for 0, 1 and X at its input.
input a
watch out
set a=$a
phase
set a=X
phase
