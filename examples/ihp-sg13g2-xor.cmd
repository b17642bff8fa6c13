input vss a b
watch a b y yn
set vss=0
set a=0 b=0
phase
expect y=0 yn=1
set a=0 b=1
phase
expect y=1 yn=0
set a=1 b=1
phase
expect y=0 yn=1
set a=1 b=0
phase
expect y=1 yn=0
| An unknown input makes the output unknown.
set b=X
phase
expect y=X
