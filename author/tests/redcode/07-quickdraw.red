;redcode-94
;name Quickdraw McGraw
;author Sven Aalto
;strategy q^2-ish quickscan into a plain silk
;strategy Thanks to P.Kline, A.Ivner and everybody on r.g.cw
;assert CORESIZE==8000 && MAXLENGTH>99 && VERSION>=80

qf	equ	qk
qs	equ	222
qd	equ	322
qi	equ	7
qr	equ	11
qb01	equ	(qf+(qs*2))
qb02	equ	(qf+(qs*5))
qb03	equ	(qf+(qs*9))
qscan	equ	qb&j

	org	qgo

qbomb	dat	{qi*qr-10,	{1
qgo
j	for	3
	sne.i	qscan,	qscan+qd
	seq.i	qscan+qs,	qscan+qs+qd
	jmp	qa&j
	rof
	jmp	silk
j	for	3
qa&j	mov.ab	#qb&j-qptr,	qptr
	jmp	qk,	<j
	rof
qk	mov	qbomb,	@qptr
	add.ab	#qi,	qptr
	djn	qk,	#qr
silk	spl	1,	<300
	spl	1,	<400
	spl	@0,	>1400
	mov	}-1,	>-1
	mov	{-2,	<1
	jmp	@0,	>2000
qptr	dat	#,	0
	dat	0
