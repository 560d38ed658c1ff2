;redcode-94
;name Leftovers
;author (anonymous)
;strategy bits of older warriors, glued with an spl
;strategy don't expect too much!!!

	org	cook
p1	equ	333
p2	equ	-p1*3
dish01	equ	spl	@0,	>p1
dish02	equ	mov	}-1,	>-1
dish03	equ	mov.i	{p2,	<p2
dish04	equ	jmp	-3,	{p1

cook	spl	table2
	spl	1,	}p1
	spl	1,	}p2
table1
c	for	4
	dish&c
	rof
table2	spl	#,	<-5
	mov.i	crumb,	<table1-6
	mov.i	crumb,	>p2
	jmp	-2
crumb	dat	<-20,	<20
	end	cook
