;redcode-94
;name Glue Gun
;author B. Castellano
;strategy stunning stone, uses #-spl so each hit sticks twice
;assert CORESIZE==8000&&MAXCYCLES>=80000

drip	equ	spl	#,	{2
stick	equ	mov.i	#3,	-1
hot	equ	1139
squeeze	equ	mov.i	gl&g,	*trig
	equ	add.a	#hot*g,	trig

	org	pull
	for	0
	"glue" = spl #,{2 ; the sticks are mov.i #3,-1 ; don't swap! (12% worse)
	rof
pull
g	for	2
	squeeze
	rof
	djn.f	pull,	<-1139
	spl	#,	<pull-3
	mov	gl01+2,	>pull-4
	djn.f	-1,	>pull-4
gl01	drip
gl02	stick
	dat	<1,	19
trig	dat	hot,	#0
	end	pull
