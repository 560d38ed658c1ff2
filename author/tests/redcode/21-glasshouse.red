;redcode-94
;name Glasshouse 0.9
;author D. van Rijn
;strategy imp gate w/ moving wall, waits until the other one dies of old age
;strategy or till the cows come home; ties are fine too
;assert CORESIZE==8000 && MAXCYCLES/2>10000

wall	equ	(gate-9)
pane	equ	dat	<wall-CORESIZE/3,	<wall+CORESIZE/3
glaze	equ	spl	#,	<wall
	equ	mov	glass,	<wall+1
	equ	jmp	-1,	<wall-1

	org	house
front
door
house	mov	glass,	wall
	mov	glass,	wall-2
	spl	1,	<wall-1
gate
	glaze
glass	pane
shards
t	for	8
	dat	}wall-t,	>wall-10*t
	rof

for 0
He who lives in a glasshouse shouldn't throw stones; so we don't. "Q.E.D."
rof
	end
Written on the train, 24 minutes.
