;redcode-94
;name Three Rings (v1.1)
;author Karl-Heinz Ossig
;strategy three interleaved imp spirals launched by a vector
;strategy plus a little clear to have something to do
;assert CORESIZE==8000&&MAXLENGTH>=100

imp_sz	equ	2667
launchpt	equ	(start+37)
vec	equ	imp+j*imp_sz

	for	0
	The vector is read by {ptr, so it has to be downwards.
	Don't reorder these!  I've wasted a whole evening on that...
	rof

	org	start
start
go	spl	1,	<-900
	spl	1,	<-910
	spl	2,	<-920
	djn.f	clear,	#0
	jmp	@ptr,	{0
ptr	dat	0,	table+8

table
j	for	8
	jmp	vec+j-1,	0
	rof

imp	mov.i	#1,	imp_sz
clear	spl	#,	0
	mov	bmb,	>-10
	djn.f	-1,	{-11
bmb	dat	<-30,	1-imp_sz

	end
