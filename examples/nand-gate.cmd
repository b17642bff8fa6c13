| Both inputs fall in turn from where the output is 0, so that an open pull-up leaves it there.
input a b
watch out
set a=1 b=1
phase
set a=0 b=1
phase
set a=1 b=1
phase
set a=1 b=0
phase
