;redcode-94
;name Ploughshare
;author Hilde Müller
;strategy bidirectional clear: one plough goes up, one down
;strategy swords were beaten beforehand
;assert CORESIZE==8000 && MAXPROCESSES==8000 && MAXLENGTH>=64

furrow	equ	27
blade	equ	(field+furrow)
seed	equ	dat	<2667,	#furrow
ox01	equ	>up
ox02	equ	<down
yoke	equ	mov.i	grain,	ox&v

	org	harrow
field
up	dat	0,	$blade
down	dat	0,	$-4
harrow	spl	#,	<-9
pair
v	for	2
	yoke
	rof
	djn.f	pair,	<down-3
grain	seed
	for	(MAXLENGTH-CURLINE)/10
	dat	field
	rof
	end	harrow
