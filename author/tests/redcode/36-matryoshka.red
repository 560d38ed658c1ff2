;redcode-94
;name Matryoshka
;author V. Sokolov
;strategy paper in paper in paper; the sizes shrink
;assert CORESIZE==8000 && MAXLENGTH>=100

doll0101	equ	811
doll0102	equ	1613
doll0201	equ	2423
doll0202	equ	3251
painted	equ	(doll&a&b+a-b)
lacquer	equ	spl	@0,	>painted
	equ	mov.i	}-1,	>-1

	org	big
big	spl	1,	<-1000
	spl	1,	<-1001
	spl	2,	<-1002
	jmp	small+8
	nop	big,	}big

small
a	for	2
b	for	2
	lacquer
	rof
	rof
	jmp	@-1,	{-2
	Dat.F	<2667,	#a
	dat	<1,	<2667

for 0
	a is 0 in the last-but-one line (it's a register there, not the
	counter). pMARS doesn't care, so neither do I.
rof
	end
