;redcode-94
;name Marble Run
;author E. Castellanos
;strategy imp-ring feeder: a loop spawns imps at (i,j) places
;strategy tuned vs. Blade-like scanners?  not really
;assert CORESIZE==8000 && MAXLENGTH>=100 && CORESIZE%3!=0 && ROUNDS<=99999

ramp	equ	2667
glass	equ	mov.i	#i,	ramp
chute	equ	(r01+i*ramp+j)
bump	equ	jmp	chute,	<-i*9

	org	top
top
i	for	3
j	for	4
	mov.i	marble,	chute
	rof
	rof
slide	spl	1,	<-222
	spl	1,	<-333
	spl	1,	<-444
	jmp	*r01,	}r01
r01	dat	$track,	#0
marble	mov.i	#4,	ramp

track
i	for	3
j	for	4
	bump
	rof
	glass
	rof
	for	MAXLENGTH-CURLINE-50
	dat	top,	track
	rof
	end

Marble #13 is missing; it's under the sofa.
