| `in` and `out` have 256 cells each: two groups of 257 nodes.
wide 257
vector write write{0:255}
vector read read{0:255}
input data precharge write read
watch in out keep7 keep200
set write=0 read=0 precharge=1
| Write 1 into word 7 and 0 into word 200. Kept is the complement.
set data=1 write7=1
phase
set write7=0 data=0 write200=1
phase
set write200=0
phase
| Read word 7: `out` was precharged and keeps its 1, since keep7 is 0.
set precharge=0
phase
set precharge=1 read7=1
phase
expect out=1
| Read word 200, whose node pulls `out` down.
set read7=0 precharge=0
phase
set precharge=1 read200=1
phase
expect out=0
| Word 8 was never written.
set read200=0 precharge=0
phase
set precharge=1 read8=1
phase
expect out=X
report
