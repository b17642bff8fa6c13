* Devices of gf180mcu (GlobalFoundries) for sim-spice. A deck has no .include, so this file goes before the deck: cat pdk/gf180mcu.sp deck.sp > whole.sp
* This first line is the title of the whole deck. A call of a device, x0 drain gate source bulk NAME w=1 l=0.15, becomes a transistor
* of strength 2 if nothing else is said; what a call passes (w l m nf ng mult ad as pd ps nrd nrs sa sb sd) is passed unread, and so is
* the bulk. The cards .model are for decks that have the devices as m cards, as CDL and extracted ones of KLayout do.
* Supplies: VDD is a rail by its name. VSS isn't: input vss, and set vss=0, in the script. pdk/README.md has more.

* 3.3 V, 5 V, 6 V and 10 V. Those with dss have a blocked silicide at the drain, for pads.
.model nfet_03v3 nmos
.subckt nfet_03v3 d g s b
m1 d g s b n
.ends
.model nfet_05v0 nmos
.subckt nfet_05v0 d g s b
m1 d g s b n
.ends
.model nfet_06v0 nmos
.subckt nfet_06v0 d g s b
m1 d g s b n
.ends
.model nfet_03v3_dss nmos
.subckt nfet_03v3_dss d g s b
m1 d g s b n
.ends
.model nfet_05v0_dss nmos
.subckt nfet_05v0_dss d g s b
m1 d g s b n
.ends
.model nfet_06v0_dss nmos
.subckt nfet_06v0_dss d g s b
m1 d g s b n
.ends
.model nfet_03v3_dn nmos
.subckt nfet_03v3_dn d g s b
m1 d g s b n
.ends
.model nfet_06v0_dn nmos
.subckt nfet_06v0_dn d g s b
m1 d g s b n
.ends
.model nfet_10v0_asym nmos
.subckt nfet_10v0_asym d g s b
m1 d g s b n
.ends
.model pfet_03v3 pmos
.subckt pfet_03v3 d g s b
m1 d g s b p
.ends
.model pfet_05v0 pmos
.subckt pfet_05v0 d g s b
m1 d g s b p
.ends
.model pfet_06v0 pmos
.subckt pfet_06v0 d g s b
m1 d g s b p
.ends
.model pfet_03v3_dss pmos
.subckt pfet_03v3_dss d g s b
m1 d g s b p
.ends
.model pfet_05v0_dss pmos
.subckt pfet_05v0_dss d g s b
m1 d g s b p
.ends
.model pfet_06v0_dss pmos
.subckt pfet_06v0_dss d g s b
m1 d g s b p
.ends
.model pfet_03v3_dn pmos
.subckt pfet_03v3_dn d g s b
m1 d g s b p
.ends
.model pfet_06v0_dn pmos
.subckt pfet_06v0_dn d g s b
m1 d g s b p
.ends
.model pfet_10v0_asym pmos
.subckt pfet_10v0_asym d g s b
m1 d g s b p
.ends

* Native devices, with a threshold near 0 V, are n and not d: a d conducts whatever its gate is, and would join for good what the gate of
* a native device keeps apart. What little flows at a gate of 0 is left out. They have strength 3, since in a level shifter they
* must win against the pair of p devices that holds the old state.
.model nfet_05v0_nvt nmos
.subckt nfet_05v0_nvt d g s b
m1 d g s b n strength=3
.ends
.model nfet_06v0_nvt nmos
.subckt nfet_06v0_nvt d g s b
m1 d g s b n strength=3
.ends

* Resistors as calls join their ends. A card whose name begins with r joins nothing: put an x before it.
.subckt rm1 r0 r1
m1 r0 vdd r1 0 d strength=4
.ends
.subckt rm2 r0 r1
m1 r0 vdd r1 0 d strength=4
.ends
.subckt rm3 r0 r1
m1 r0 vdd r1 0 d strength=4
.ends
.subckt tm6k r0 r1
m1 r0 vdd r1 0 d strength=4
.ends
.subckt tm9k r0 r1
m1 r0 vdd r1 0 d strength=4
.ends
.subckt tm11k r0 r1
m1 r0 vdd r1 0 d strength=4
.ends
.subckt nplus_u r0 r1 b
m1 r0 vdd r1 0 d strength=4
.ends
.subckt pplus_u r0 r1 b
m1 r0 vdd r1 0 d strength=4
.ends
.subckt nplus_s r0 r1 b
m1 r0 vdd r1 0 d strength=4
.ends
.subckt pplus_s r0 r1 b
m1 r0 vdd r1 0 d strength=4
.ends
.subckt npolyf_u r0 r1 b
m1 r0 vdd r1 0 d strength=4
.ends
.subckt ppolyf_u r0 r1 b
m1 r0 vdd r1 0 d strength=4
.ends
.subckt npolyf_s r0 r1 b
m1 r0 vdd r1 0 d strength=4
.ends
.subckt ppolyf_s r0 r1 b
m1 r0 vdd r1 0 d strength=4
.ends
.subckt ppolyf_u_1k r0 r1 b
m1 r0 vdd r1 0 d strength=4
.ends
.subckt ppolyf_u_2k r0 r1 b
m1 r0 vdd r1 0 d strength=4
.ends
.subckt ppolyf_u_3k r0 r1 b
m1 r0 vdd r1 0 d strength=4
.ends

* Diodes and capacitors as calls mean nothing.
.subckt diode_nd2ps_03v3 a c
.ends
.subckt diode_nd2ps_06v0 a c
.ends
.subckt diode_pd2nw_03v3 a c
.ends
.subckt diode_pd2nw_06v0 a c
.ends
.subckt diode_nw2ps_03v3 a c
.ends
.subckt diode_nw2ps_06v0 a c
.ends
.subckt cap_mim_1f0fF c0 c1
.ends
.subckt cap_mim_1f5fF c0 c1
.ends
.subckt cap_mim_2f0fF c0 c1
.ends
.subckt cap_nmos_03v3 c0 c1
.ends
.subckt cap_pmos_03v3 c0 c1
.ends
.subckt cap_nmos_06v0 c0 c1
.ends
.subckt cap_pmos_06v0 c0 c1
.ends

* Devices that are not of the PDK, for a keeper, a bleeder or a driver: the same four terminals, and a strength of their own. Put the name
* in the place of the device's on the one call whose strength matters.
.subckt weak_nfet d g s b
m1 d g s b n strength=1
.ends
.subckt weak_pfet d g s b
m1 d g s b p strength=1
.ends
.subckt strong_nfet d g s b
m1 d g s b n strength=3
.ends
.subckt strong_pfet d g s b
m1 d g s b p strength=3
.ends
