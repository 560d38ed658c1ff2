;redcode-94
;name Jacob's Ladder
;author Rev. P. Quill
;strategy each rung is an spl to the next; top rung launches a clear.
;strategy Genesis 28:12
;assert CORESIZE==8000 && MAXLENGTH>=100

rungs	equ	6
foot	equ	(heaven-rungs)
angel	equ	mov.i	wing,	>foot-d*111
descend2 equ	dat	d,	>-d
descend	equ	spl	rung&d,	>d*111

	org	earth
earth	jmp	rung01,	<earth-1
d	for	rungs
rung&d	spl	1,	<-d*111
	rof
heaven	spl	#,	{foot
d	for	rungs/2
	angel
	rof
	djn.f	heaven+1,	{foot-1
wing	dat	<1-rungs,	#rungs

d	for	(MAXLENGTH-CURLINE)/rungs
step&d	descend2
	rof
	end
