* Devices of sky130 (SkyWater) for sim-spice. A deck has no .include, so this file goes before the deck: cat pdk/sky130.sp deck.sp > whole.sp
* This first line is the title of the whole deck. A call of a device, x0 drain gate source bulk NAME w=1 l=0.15, becomes a transistor
* of strength 2 if nothing else is said; what a call passes (w l m nf ng mult ad as pd ps nrd nrs sa sb sd) is passed unread, and so is
* the bulk. The cards .model are for decks that have the devices as m cards, as CDL and extracted ones of KLayout do.
* Supplies, with VPWR and VGND as an example: input vpwr vgnd, and set vpwr=1 vgnd=0, in the script. pdk/README.md has more.

* 1.8 V.
.model sky130_fd_pr__nfet_01v8 nmos
.subckt sky130_fd_pr__nfet_01v8 d g s b
m1 d g s b n
.ends
.model sky130_fd_pr__nfet_01v8_lvt nmos
.subckt sky130_fd_pr__nfet_01v8_lvt d g s b
m1 d g s b n
.ends
.model sky130_fd_pr__special_nfet_01v8 nmos
.subckt sky130_fd_pr__special_nfet_01v8 d g s b
m1 d g s b n
.ends
.model sky130_fd_pr__esd_nfet_01v8 nmos
.subckt sky130_fd_pr__esd_nfet_01v8 d g s b
m1 d g s b n
.ends
.model sky130_fd_pr__pfet_01v8 pmos
.subckt sky130_fd_pr__pfet_01v8 d g s b
m1 d g s b p
.ends
.model sky130_fd_pr__pfet_01v8_hvt pmos
.subckt sky130_fd_pr__pfet_01v8_hvt d g s b
m1 d g s b p
.ends
.model sky130_fd_pr__pfet_01v8_lvt pmos
.subckt sky130_fd_pr__pfet_01v8_lvt d g s b
m1 d g s b p
.ends
.model sky130_fd_pr__pfet_01v8_mvt pmos
.subckt sky130_fd_pr__pfet_01v8_mvt d g s b
m1 d g s b p
.ends
.model sky130_fd_pr__special_pfet_01v8_hvt pmos
.subckt sky130_fd_pr__special_pfet_01v8_hvt d g s b
m1 d g s b p
.ends

* 5 V, 10.5 V, 16 V and 20 V.
.model sky130_fd_pr__nfet_g5v0d10v5 nmos
.subckt sky130_fd_pr__nfet_g5v0d10v5 d g s b
m1 d g s b n
.ends
.model sky130_fd_pr__nfet_g5v0d16v0 nmos
.subckt sky130_fd_pr__nfet_g5v0d16v0 d g s b
m1 d g s b n
.ends
.model sky130_fd_pr__nfet_20v0 nmos
.subckt sky130_fd_pr__nfet_20v0 d g s b
m1 d g s b n
.ends
.model sky130_fd_pr__nfet_20v0_iso nmos
.subckt sky130_fd_pr__nfet_20v0_iso d g s b
m1 d g s b n
.ends
.model sky130_fd_pr__esd_nfet_g5v0d10v5 nmos
.subckt sky130_fd_pr__esd_nfet_g5v0d10v5 d g s b
m1 d g s b n
.ends
.model sky130_fd_pr__pfet_g5v0d10v5 pmos
.subckt sky130_fd_pr__pfet_g5v0d10v5 d g s b
m1 d g s b p
.ends
.model sky130_fd_pr__pfet_g5v0d16v0 pmos
.subckt sky130_fd_pr__pfet_g5v0d16v0 d g s b
m1 d g s b p
.ends
.model sky130_fd_pr__pfet_20v0 pmos
.subckt sky130_fd_pr__pfet_20v0 d g s b
m1 d g s b p
.ends
.model sky130_fd_pr__esd_pfet_g5v0d10v5 pmos
.subckt sky130_fd_pr__esd_pfet_g5v0d10v5 d g s b
m1 d g s b p
.ends

* Native devices, with a threshold near 0 V, are n and not d: a d conducts whatever its gate is, and would join for good what the gate of
* a native device keeps apart. What little flows at a gate of 0 is left out. They have strength 3, since in a level shifter they
* must win against the pair of p devices that holds the old state.
.model sky130_fd_pr__nfet_03v3_nvt nmos
.subckt sky130_fd_pr__nfet_03v3_nvt d g s b
m1 d g s b n strength=3
.ends
.model sky130_fd_pr__nfet_05v0_nvt nmos
.subckt sky130_fd_pr__nfet_05v0_nvt d g s b
m1 d g s b n strength=3
.ends
.model sky130_fd_pr__nfet_20v0_nvt nmos
.subckt sky130_fd_pr__nfet_20v0_nvt d g s b
m1 d g s b n strength=3
.ends
.model sky130_fd_pr__nfet_20v0_nvt_iso nmos
.subckt sky130_fd_pr__nfet_20v0_nvt_iso d g s b
m1 d g s b n strength=3
.ends
.model sky130_fd_pr__nfet_20v0_zvt nmos
.subckt sky130_fd_pr__nfet_20v0_zvt d g s b
m1 d g s b n strength=3
.ends
.model sky130_fd_pr__esd_nfet_05v0_nvt nmos
.subckt sky130_fd_pr__esd_nfet_05v0_nvt d g s b
m1 d g s b n strength=3
.ends

* The devices of memory cells. A read must not write, so the pull-down (latch, 3) wins against the pass device (2). A write comes through
* the pass device, which must win against the pull-up (1). The pull-up of the cells is called special_pfet_pass in some decks and
* special_pfet_latch in others. An m card has no strength but its own: strength=3 on it, or 1.
.model sky130_fd_pr__special_nfet_latch nmos
.subckt sky130_fd_pr__special_nfet_latch d g s b
m1 d g s b n strength=3
.ends
.model sky130_fd_pr__special_nfet_latch_lowleakage nmos
.subckt sky130_fd_pr__special_nfet_latch_lowleakage d g s b
m1 d g s b n strength=3
.ends
.model sky130_fd_pr__special_nfet_pass nmos
.subckt sky130_fd_pr__special_nfet_pass d g s b
m1 d g s b n
.ends
.model sky130_fd_pr__special_nfet_pass_lowleakage nmos
.subckt sky130_fd_pr__special_nfet_pass_lowleakage d g s b
m1 d g s b n
.ends
.model sky130_fd_pr__special_nfet_pass_flash nmos
.subckt sky130_fd_pr__special_nfet_pass_flash d g s b
m1 d g s b n
.ends
.model sky130_fd_pr__special_pfet_pass pmos
.subckt sky130_fd_pr__special_pfet_pass d g s b
m1 d g s b p strength=1
.ends
.model sky130_fd_pr__special_pfet_latch pmos
.subckt sky130_fd_pr__special_pfet_latch d g s b
m1 d g s b p strength=1
.ends
.model sky130_fd_pr__special_pfet_pass_lowleakage pmos
.subckt sky130_fd_pr__special_pfet_pass_lowleakage d g s b
m1 d g s b p strength=1
.ends

* Resistors as calls join their ends. A card whose name begins with r joins nothing: put an x before it, or a tie cell's outputs float.
.subckt sky130_fd_pr__res_generic_nd r0 r1
m1 r0 vdd r1 0 d strength=4
.ends
.subckt sky130_fd_pr__res_generic_pd r0 r1
m1 r0 vdd r1 0 d strength=4
.ends
.subckt sky130_fd_pr__res_generic_po r0 r1
m1 r0 vdd r1 0 d strength=4
.ends
.subckt sky130_fd_pr__res_generic_l1 r0 r1
m1 r0 vdd r1 0 d strength=4
.ends
.subckt sky130_fd_pr__res_generic_m1 r0 r1
m1 r0 vdd r1 0 d strength=4
.ends
.subckt sky130_fd_pr__res_generic_m2 r0 r1
m1 r0 vdd r1 0 d strength=4
.ends
.subckt sky130_fd_pr__res_generic_m3 r0 r1
m1 r0 vdd r1 0 d strength=4
.ends
.subckt sky130_fd_pr__res_generic_m4 r0 r1
m1 r0 vdd r1 0 d strength=4
.ends
.subckt sky130_fd_pr__res_generic_m5 r0 r1
m1 r0 vdd r1 0 d strength=4
.ends

* Diodes and capacitors as calls mean nothing.
.subckt sky130_fd_pr__diode_pw2nd_05v5 a c
.ends
.subckt sky130_fd_pr__diode_pw2nd_11v0 a c
.ends
.subckt sky130_fd_pr__diode_pd2nw_05v5 a c
.ends
.subckt sky130_fd_pr__diode_pd2nw_11v0 a c
.ends
.subckt sky130_fd_pr__cap_mim_m3_1 c0 c1
.ends
.subckt sky130_fd_pr__cap_mim_m3_2 c0 c1
.ends
.subckt sky130_fd_pr__cap_var_lvt c0 c1 b
.ends
.subckt sky130_fd_pr__cap_var_hvt c0 c1 b
.ends

* Devices that are not of the PDK, for a keeper, a bleeder or a driver: the same four terminals, and a strength of their own. Put the name
* in the place of the device's on the one call whose strength matters.
.subckt weak_nfet d g s b
m1 d g s b n strength=1
.ends
.subckt weak_pfet d g s b
m1 d g s b p strength=1
.ends
.subckt strong_nfet d g s b
m1 d g s b n strength=3
.ends
.subckt strong_pfet d g s b
m1 d g s b p strength=3
.ends
