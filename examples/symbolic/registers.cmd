| A word is written at an address that is left open, and read at another one: it is the word if the addresses are equal, and else the old one.
variables $w1 $w0 $r1 $r0 $d1 $d0
vector d d{1:0}
vector w w{3:0}
vector r r{3:0}
vector y y{1:0}
vector word3 m3{1:0}
vector word2 m2{1:0}
vector word1 m1{1:0}
vector word0 m0{1:0}
input d w r
watch y
set w=0 r=0
charge word3=$p{1:0} word2=$q{1:0} word1=$s{1:0} word0=$t{1:0}
set d=$d{1:0} w=$w1&$w0,$w1&!$w0,!$w1&$w0,!$w1&!$w0
phase
set w=0 d=X
phase
set r=$r1&$r0,$r1&!$r0,!$r1&$r0,!$r1&!$r0
phase
let $same !($w1^$r1)&!($w0^$r0)
let $old1 $r1&$r0&$p1|$r1&!$r0&$q1|!$r1&$r0&$s1|!$r1&!$r0&$t1
let $old0 $r1&$r0&$p0|$r1&!$r0&$q0|!$r1&$r0&$s0|!$r1&!$r0&$t0
expect y=!($same&$d1|!$same&$old1),!($same&$d0|!$same&$old0)
