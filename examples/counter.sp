* counter.v as yosys makes it of the cells of the OSU library of 0.35 um. Here the cells are drawn anew, each of its textbook's form.
.subckt INVX1 A Y vdd gnd
mp Y A vdd vdd pfet w=4u l=0.4u
mn Y A gnd gnd nfet w=2u l=0.4u
.ends
.subckt AND2X1 A B Y vdd gnd
mp1 n A vdd vdd pfet w=4u l=0.4u
mp2 n B vdd vdd pfet w=4u l=0.4u
mn1 n A s gnd nfet w=4u l=0.4u
mn2 s B gnd gnd nfet w=4u l=0.4u
mp3 Y n vdd vdd pfet w=4u l=0.4u
mn3 Y n gnd gnd nfet w=2u l=0.4u
.ends
.subckt NAND3X1 A B C Y vdd gnd
mp1 Y A vdd vdd pfet w=4u l=0.4u
mp2 Y B vdd vdd pfet w=4u l=0.4u
mp3 Y C vdd vdd pfet w=4u l=0.4u
mn1 Y A s gnd nfet w=6u l=0.4u
mn2 s B t gnd nfet w=6u l=0.4u
mn3 t C gnd gnd nfet w=6u l=0.4u
.ends
.subckt NOR2X1 A B Y vdd gnd
mp1 s A vdd vdd pfet w=8u l=0.4u
mp2 Y B s vdd pfet w=8u l=0.4u
mn1 Y A gnd gnd nfet w=2u l=0.4u
mn2 Y B gnd gnd nfet w=2u l=0.4u
.ends
.subckt OAI21X1 A B C Y vdd gnd
mp1 s A vdd vdd pfet w=8u l=0.4u
mp2 Y B s vdd pfet w=8u l=0.4u
mp3 Y C vdd vdd pfet w=4u l=0.4u
mn1 t A gnd gnd nfet w=4u l=0.4u
mn2 t B gnd gnd nfet w=4u l=0.4u
mn3 Y C t gnd nfet w=4u l=0.4u
.ends
.subckt AOI21X1 A B C Y vdd gnd
mp1 s A vdd vdd pfet w=8u l=0.4u
mp2 s B vdd vdd pfet w=8u l=0.4u
mp3 Y C s vdd pfet w=8u l=0.4u
mn1 Y A t gnd nfet w=4u l=0.4u
mn2 t B gnd gnd nfet w=4u l=0.4u
mn3 Y C gnd gnd nfet w=2u l=0.4u
.ends
* A flip-flop that takes D when CLK rises: two latches of clocked inverters. b is the inverse of CLK.
.subckt DFFPOSX1 CLK D Q vdd gnd
mpc b CLK vdd vdd pfet w=8u l=0.4u
mnc b CLK gnd gnd nfet w=4u l=0.4u
* The first latch: m takes the inverse of D while CLK is 0, and keeps it while CLK is 1.
mp1 i1 D vdd vdd pfet w=4u l=0.4u
mp2 m CLK i1 vdd pfet w=4u l=0.4u
mn2 m b i2 gnd nfet w=2u l=0.4u
mn1 i2 D gnd gnd nfet w=2u l=0.4u
mp3 i3 k vdd vdd pfet w=4u l=0.4u
mp4 m b i3 vdd pfet w=4u l=0.4u
mn4 m CLK i4 gnd nfet w=2u l=0.4u
mn3 i4 k gnd gnd nfet w=2u l=0.4u
mp5 k m vdd vdd pfet w=4u l=0.4u
mn5 k m gnd gnd nfet w=2u l=0.4u
* The second latch: s takes the inverse of k while CLK is 1, and keeps it while CLK is 0.
mp6 i5 k vdd vdd pfet w=4u l=0.4u
mp7 s b i5 vdd pfet w=4u l=0.4u
mn7 s CLK i6 gnd nfet w=2u l=0.4u
mn6 i6 k gnd gnd nfet w=2u l=0.4u
mp8 i7 Q vdd vdd pfet w=2u l=0.4u
mp9 s CLK i7 vdd pfet w=2u l=0.4u
mn9 s b i8 gnd nfet w=2u l=0.4u
mn8 i8 Q gnd gnd nfet w=2u l=0.4u
mp10 Q s vdd vdd pfet w=8u l=0.4u
mn10 Q s gnd gnd nfet w=4u l=0.4u
.ends
* The calls, as pdk/blif_to_deck.awk writes them.
x1 clk clk_DFFPOSX1_CLK_D count[3] vdd gnd DFFPOSX1
x2 clk clk_DFFPOSX1_CLK_1_D count[2] vdd gnd DFFPOSX1
x3 enable_NAND3X1_A_Y_NOR2X1_B_Y clk_DFFPOSX1_CLK_1_D_NOR2X1_Y_B clk_DFFPOSX1_CLK_1_D vdd gnd NOR2X1
x4 count[2] enable_NAND3X1_A_Y_INVX1_A_Y reset_INVX1_A_Y clk_DFFPOSX1_CLK_1_D_NOR2X1_Y_B vdd gnd OAI21X1
x5 clk clk_DFFPOSX1_CLK_2_D count[1] vdd gnd DFFPOSX1
x6 enable_NAND3X1_A_Y_INVX1_A_Y enable_AND2X1_A_Y_OAI21X1_B_Y clk_DFFPOSX1_CLK_2_D vdd gnd NOR2X1
x7 clk clk_DFFPOSX1_CLK_3_D count[0] vdd gnd DFFPOSX1
x8 count[3] enable_NAND3X1_A_Y_NOR2X1_B_Y clk_DFFPOSX1_CLK_D_AOI21X1_Y_C clk_DFFPOSX1_CLK_D vdd gnd AOI21X1
x9 count[3] enable_NAND3X1_A_Y_NOR2X1_B_Y reset_INVX1_A_Y clk_DFFPOSX1_CLK_D_AOI21X1_Y_C vdd gnd OAI21X1
x10 enable count[0] enable_AND2X1_A_Y vdd gnd AND2X1
x11 count[1] enable_AND2X1_A_Y reset_INVX1_A_Y enable_AND2X1_A_Y_OAI21X1_B_Y vdd gnd OAI21X1
x12 enable count[1] count[0] enable_NAND3X1_A_Y vdd gnd NAND3X1
x13 enable_NAND3X1_A_Y enable_NAND3X1_A_Y_INVX1_A_Y vdd gnd INVX1
x14 enable_NAND3X1_A_Y_NOR2X1_B_A enable_NAND3X1_A_Y enable_NAND3X1_A_Y_NOR2X1_B_Y vdd gnd NOR2X1
x15 count[2] enable_NAND3X1_A_Y_NOR2X1_B_A vdd gnd INVX1
x16 enable count[0] reset_INVX1_A_Y enable_OAI21X1_A_Y vdd gnd OAI21X1
x17 enable_AND2X1_A_Y enable_OAI21X1_A_Y clk_DFFPOSX1_CLK_3_D vdd gnd NOR2X1
x18 reset reset_INVX1_A_Y vdd gnd INVX1
.end
