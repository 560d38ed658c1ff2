;redcode-94
;name Pickpocket
;author G. Zaharia
;strategy vampire w/ two pits, the fangs alternate
;strategy second pit runs a clear with the enemy's own processes
;assert CORESIZE==8000 && MAXLENGTH>=100

bite	equ	(7*37*4)
swipe01	equ	3
swipe02	equ	5
pit	equ	pit&j
fangs	equ	jmp	@swipe&j*0,	pit-fa&j

	org	prowl
	pin	12+3*100
prowl	add.f	inc,	fa01
	mov.i	fa01,	@fa01
	add.f	inc,	fa02
	mov.i	fa02,	@fa02
	jmp	prowl,	{prowl-5
inc	dat	bite,	-bite

j	for	2
fa&j	fangs
	rof
pit01	spl	#,	<-8
	jmp	-1,	}-20
pit02	spl	0,	<-16
	mov	-9,	<pit02-12
	jmp	pit02+1

	for	CORESIZE/1000-MAXLENGTH/50
	dat	0,	0
	rof
	end	prowl
