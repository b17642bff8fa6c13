| What is the gate of a transistor holds more charge than what lies between two.
store clk 2
store clk_dffposx1_clk_d 2
store x1.b 2
store x1.k 2
store x1.m 2
store count[3] 2
store x1.s 2
store clk_dffposx1_clk_1_d 2
store x2.b 2
store x2.k 2
store x2.m 2
store count[2] 2
store x2.s 2
store enable_nand3x1_a_y_nor2x1_b_y 2
store clk_dffposx1_clk_1_d_nor2x1_y_b 2
store enable_nand3x1_a_y_invx1_a_y 2
store reset_invx1_a_y 2
store clk_dffposx1_clk_2_d 2
store x5.b 2
store x5.k 2
store x5.m 2
store count[1] 2
store x5.s 2
store enable_and2x1_a_y_oai21x1_b_y 2
store clk_dffposx1_clk_3_d 2
store x7.b 2
store x7.k 2
store x7.m 2
store count[0] 2
store x7.s 2
store clk_dffposx1_clk_d_aoi21x1_y_c 2
store enable 2
store x10.n 2
store enable_and2x1_a_y 2
store enable_nand3x1_a_y 2
store enable_nand3x1_a_y_nor2x1_b_a 2
store enable_oai21x1_a_y 2
store reset 2
| The run, as counter_test.v writes it.
input clk reset enable
watch clk reset enable count[3] count[2] count[1] count[0]
clock clk=01
set reset=0 enable=1
cycle 1
expect count[3]=x count[2]=x count[1]=x count[0]=x
set reset=1 enable=1
cycle 1
expect count[3]=0 count[2]=0 count[1]=0 count[0]=0
set reset=0 enable=1
cycle 1
expect count[3]=0 count[2]=0 count[1]=0 count[0]=1
cycle 1
expect count[3]=0 count[2]=0 count[1]=1 count[0]=0
cycle 1
expect count[3]=0 count[2]=0 count[1]=1 count[0]=1
cycle 1
expect count[3]=0 count[2]=1 count[1]=0 count[0]=0
cycle 1
expect count[3]=0 count[2]=1 count[1]=0 count[0]=1
cycle 1
expect count[3]=0 count[2]=1 count[1]=1 count[0]=0
cycle 1
expect count[3]=0 count[2]=1 count[1]=1 count[0]=1
cycle 1
expect count[3]=1 count[2]=0 count[1]=0 count[0]=0
cycle 1
expect count[3]=1 count[2]=0 count[1]=0 count[0]=1
cycle 1
expect count[3]=1 count[2]=0 count[1]=1 count[0]=0
set reset=0 enable=0
cycle 1
expect count[3]=1 count[2]=0 count[1]=1 count[0]=0
set reset=0 enable=1
cycle 1
expect count[3]=1 count[2]=0 count[1]=1 count[0]=1
cycle 1
expect count[3]=1 count[2]=1 count[1]=0 count[0]=0
cycle 1
expect count[3]=1 count[2]=1 count[1]=0 count[0]=1
cycle 1
expect count[3]=1 count[2]=1 count[1]=1 count[0]=0
cycle 1
expect count[3]=1 count[2]=1 count[1]=1 count[0]=1
cycle 1
expect count[3]=0 count[2]=0 count[1]=0 count[0]=0
cycle 1
expect count[3]=0 count[2]=0 count[1]=0 count[0]=1
set reset=1 enable=1
cycle 1
expect count[3]=0 count[2]=0 count[1]=0 count[0]=0
set reset=0 enable=1
cycle 1
expect count[3]=0 count[2]=0 count[1]=0 count[0]=1
