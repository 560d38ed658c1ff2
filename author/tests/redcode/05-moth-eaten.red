;redcode-94
;name Moth Eaten
;author T. Okafor
;strategy vampire: throws fangs and waits in the pit
;strategy "A man's got to eat"
;assert CORESIZE==8000 && MINDISTANCE>=100
;kill Moth

delta	equ	3364
fang	equ	jmp	@pit-here,	0

	org	suck
here
suck	sub.f	vadd,	tooth
	mov.i	tooth,	@tooth
	jmz.f	suck,	<-1801
	jmp	suck

vadd	dat	#delta,	#-delta
tooth
fang1	fang

pit	spl	#,	0
	spl	1,	}-15
	mov.i	-20,	<pit-5
	jmp	pit,	<-19

k	for	CORESIZE/2000
pad&k	dat	$k,	$pad&k+delta
	 for	k>2
	 dat	<k,	0
	 rof
	rof
	end	suck
