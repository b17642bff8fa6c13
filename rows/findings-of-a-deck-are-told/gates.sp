two inverters
.subckt inv a y
mp y a vdd vdd p
mn y a 0 0 n
.ends
x1 in m inv
x2 m out inv
m3 0 in vcc 0 n
