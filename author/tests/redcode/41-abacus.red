;redcode-94
;name Abacus
;author Prof. M. Dietz
;strategy a teaching example: how FOR, ROF and EQU work together
;strategy (it's a bad dwarf)
;assert CORESIZE==8000 && MAXLENGTH>=100 && MAXCYCLES==10*MAXPROCESSES

wire	equ	3
beads	equ	2*wire+1
bead	equ	dat	#r*10+c,	#bd&r
count	equ	add.ab	#wire*beads,	-1
bd01	equ	100
bd02	equ	bd01*2
bd03	equ	bd02*2

	org	go

frame
r	for	wire
c	for	beads
	bead
	rof	c
	rof	r
go	mov.i	frame,	wire*beads*3
	count
	jmp	-2,	<frame

for 0
If you're a student: "r" and "c" are counters, e.g. r=01,02,03 & c=01..07.
Question 1: what's bd&r in the last row?   Answer: 400 (of course!)
rof
	end
