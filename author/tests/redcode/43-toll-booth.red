;redcode-94
;name Toll Booth
;author Dana F.
;strategy imp-killing gate row, moves one cell after each car
;strategy "exact change only"
;assert CORESIZE==8000 && WARRIORS>0

lane01	equ	-5
lane02	equ	-7
lane03	equ	-11*(WARRIORS>0)
car	equ	lane&l
coin	equ	dat	<car,	<car-2667
change	equ	mov.i	booth+(l-1),	booth+car

	org	open
road
open	spl	#0,	<lane01
	spl	1,	<lane02
l	for	3
	change
	rof
	jmp	open+2,	<lane03
booth
l	for	3
	coin
	rof
closed
	end
Opening hours: see the "open" label.
