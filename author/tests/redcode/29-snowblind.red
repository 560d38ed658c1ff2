;redcode-94
;name Snowblind
;author ~maxx~
;strategy floods core with decoys, then boots a gate and a paper
;assert CORESIZE==8000 && MAXLENGTH>=100

flake01	equ	101
flake02	equ	203
flake03	equ	307
flake04	equ	409
boot	equ	mov.i	<from,	{to
melt	equ	flake&k+(k*k)

org	storm

for 0
	v1 -- 'snow' = dat $1,$1 (so cmp scanners stop there, hopefully)
	v2 -- more snow; 100 lines aren't enough! :)
rof

storm
k	for	4
	mov.i	snow,	melt
	mov.i	snow,	melt*2
	rof
	for	4 ; it's the hut
	boot
	rof	boot
	jmp	*to,	>2
from	dat	#,	#hut+4
to	dat	$3000,	#0
snow	dat	$1,	$1
hut	spl	#,	<-6
	mov.i	#,	}-7
	spl	@0,	>1999
	mov.i	}-1,	>-1
	jmp	-4,	{snow
	end
