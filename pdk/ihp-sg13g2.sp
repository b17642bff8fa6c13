* Devices of ihp-sg13g2 for sim-spice. A deck has no .include, so this file goes before the deck: cat pdk/ihp-sg13g2.sp deck.sp > whole.sp
* This first line is the title of the whole deck. A call of a device, x0 drain gate source bulk NAME w=1 l=0.15, becomes a transistor
* of strength 2 if nothing else is said; what a call passes (w l m nf ng mult ad as pd ps nrd nrs sa sb sd) is passed unread, and so is
* the bulk. The cards .model are for decks that have the devices as m cards, as CDL and extracted ones of KLayout do.
* Supplies: VDD is a rail by its name. VSS isn't: input vss, and set vss=0, in the script. pdk/README.md has more.

* 1.2 V (lv) and 3.3 V (hv). There are no native devices and none for memory cells alone.
.model sg13_lv_nmos nmos
.subckt sg13_lv_nmos d g s b
m1 d g s b n
.ends
.model sg13_hv_nmos nmos
.subckt sg13_hv_nmos d g s b
m1 d g s b n
.ends
.model rfnmos nmos
.subckt rfnmos d g s b
m1 d g s b n
.ends
.model rfnmoshv nmos
.subckt rfnmoshv d g s b
m1 d g s b n
.ends
.model sg13_lv_pmos pmos
.subckt sg13_lv_pmos d g s b
m1 d g s b p
.ends
.model sg13_hv_pmos pmos
.subckt sg13_hv_pmos d g s b
m1 d g s b p
.ends
.model rfpmos pmos
.subckt rfpmos d g s b
m1 d g s b p
.ends
.model rfpmoshv pmos
.subckt rfpmoshv d g s b
m1 d g s b p
.ends

* Resistors as calls join their ends. A card whose name begins with r joins nothing: put an x before it.
.subckt rsil r0 r1 b
m1 r0 vdd r1 0 d strength=4
.ends
.subckt rppd r0 r1 b
m1 r0 vdd r1 0 d strength=4
.ends
.subckt rhigh r0 r1 b
m1 r0 vdd r1 0 d strength=4
.ends

* Diodes, capacitors and the taps of wells mean nothing as calls.
.subckt dantenna a c
.ends
.subckt dpantenna a c
.ends
.subckt cap_cmim a c
.ends
.subckt cparasitic a c
.ends
.subckt ptap1 a c
.ends
.subckt ntap1 a c
.ends

* Devices that are not of the PDK, for a keeper, a bleeder or a driver: the same four terminals, and a strength of their own. Put the name
* in the place of the device's on the one call whose strength matters.
.subckt weak_nfet d g s b
m1 d g s b n strength=1
.ends
.subckt weak_pfet d g s b
m1 d g s b p strength=1
.ends
.subckt strong_nfet d g s b
m1 d g s b n strength=3
.ends
.subckt strong_pfet d g s b
m1 d g s b p strength=3
.ends
