;redcode-94
;name Nightjar
;author R. Vandenbroeck
;strategy qscan with a table and P^2 addressing -> bomber/stone
;strategy (I took the idea from a posting by someone whose name I lost)
;assert CORESIZE==8000 && MAXLENGTH>=100
;kill Nightjar

qfac	equ	(tab+1000)
qlo01	equ	3
qlo02	equ	9
qhi01	equ	13
qhi02	equ	5
qpos	equ	(qfac*qlo&x*qhi&y)
peek	equ	sne	tab+100*qlo&x*qhi&y,	tab+100*qlo&x*qhi&y+8
	equ	jmp	strike,	{x
stone	equ	spl	#,	<-14
	equ	mov	feather,	@wing
	equ	add	#2*1801,	wing

	org	hunt
	dat	0
tab	dat	qlo01,	qhi01
	dat	qlo02,	qhi02
hunt
x	for	2
y	for	2
	peek
	rof
	rof
	jmp	roost
strike	mul.f	tab,	tab+1
	mov	feather,	*tab+1
	djn	-1,	#9
roost
	stone
wing	djn.f	-2,	{-1801
feather	dat	<1,	{5
	for	(MAXLENGTH-CURLINE)*2/3
	dat	tab,	0
	rof
	end
