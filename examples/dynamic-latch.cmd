input phi in
watch phi in st q
clock phi=1010 in=1100
cycle 1
expect st=0 q=1
