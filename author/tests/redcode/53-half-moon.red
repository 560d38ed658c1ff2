;redcode-94
;name Half Moon Bay
;author Sandy P.
;strategy p-space: picks one of 3 components by cell 3 of p-space, mod 3
;assert CORESIZE==8000 && PSPACESIZE>=500 && (ROUNDS==1 || ROUNDS!=1)
;kill Half Moon

RES	equ	#0
TIDE	equ	#3
moon01	equ	2234
moon02	equ	-1471
moon03	equ	977
wave	equ	spl	1,	<moon&m
	equ	mov.i	surf,	{moon&m
	equ	jmp	-1,	<moon&m-3
table	equ	w01-1

	PIN	3300+17

start
dusk	ldp.a	RES,	d1
	ldp.a	TIDE,	d2
d1	sne.a	#0,	#1
	add.a	#1,	d2
	mod.a	#3,	d2
	stp.a	d2,	TIDE
d2	jmp	@w00,	}0
w00	dat	0,	#w01-w00
m	for	3
w&m	wave
	rof
surf	dat	<-1,	<2667
	end	start
p-switchers aren't my cup of tea, but "if you can't beat them..."
