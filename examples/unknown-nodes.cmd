input w a d
watch cell y q
set w=0 a=0 d=0
charge bus=1 cell=0 q=0
phase
| A phase here would print XXX. `cosmos why` is asked before it, since an X at rest has itself for a reason.
set w=1 a=1 d=1
