;redcode-94
;name Ferris
;author H.D.
;strategy binary launch of an 8 process ring, plus a ring of jumpers
;assert CORESIZE==8000 && MAXLENGTH>=100

d3	equ	2667
seat	equ	(hub+(i-1)*d3)
hub	equ	(wheel+4)
ring	equ	spl	1,	{0
	equ	spl	1,	{0
	equ	spl	1,	{0

	org	wheel-wheel+3
wheel	mov.i	#d3,	*0
	mov.i	#,	d3
	nop	0
	ring
	djn.a	@1,	#8
i	for	8
gondola&i	jmp	seat,	<-i*7
	rof
rest	for	(MAXLENGTH-CURLINE)/d3
	dat	0
	rof
	end
