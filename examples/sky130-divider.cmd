| What feeds back in the latches is weak: else they are X after a clock edge, at which both phases of the clock overlap. These lines are
| those of pdk/feedback.awk.
strength 15 1
strength 17 1
strength 23 1
strength 25 1
strength 39 1
strength 41 1
strength 47 1
strength 49 1
input vpwr vgnd clk resetb
set vpwr=1 vgnd=0
watch clk resetb q0 q1
clock clk=01
| With the reset the ring takes ones.
set resetb=0
cycle 2
expect q0=1 q1=1
set resetb=1
cycle 1
expect q0=0 q1=1
cycle 1
expect q0=0 q1=0
cycle 1
expect q0=1 q1=0
cycle 1
expect q0=1 q1=1
cycle 4
expect q0=1 q1=1
