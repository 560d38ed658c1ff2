;redcode-94
;name Double Decker
;author R. Pascual
;strategy two bombing loops driven by one pointer, then gate
;assert CORESIZE==8000&&MAXLENGTH>=100&&MAXCYCLES>=80000

step1	equ	2936
step2	equ	-1468
gate	equ	(bot-4)
incr	equ	>step1	,	<step2
twice	equ	mov.i	bmb,	@ptr
	equ	add.f	inc,	ptr
	equ	mov.i	bmb,	*ptr

	org	top

top:	spl	#0,	<gate
loop
deck
	twice
	djn.f	loop,	<gate
ptr	dat	#step1,	#step2
inc	dat	incr
bmb	dat	<1,	>1
bot
j	for	(MAXLENGTH-CURLINE)/3
	dat	0,	j
	dat	}j,	0
	dat	j
	rof
	end
