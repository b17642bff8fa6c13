| A dynamic latch holds what was written, whatever was there and whatever comes behind it on the bus.
input phi in
watch st q
charge st=$old
set phi=1 in=$new
phase
expect st=$new q=!$new
set phi=0 in=$other
phase
expect st=$new q=!$new
