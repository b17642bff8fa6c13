two inverters
* vdd and 0 are the rails, inside a subcircuit too
.subckt inv a y
mp y a vdd vdd pmos w=2u l=0.18u
mn y a 0 0 nmos w=1u l=0.18u
.ends inv
x1 in m inv
x2 m out inv
c1 out 0 10f
.end
