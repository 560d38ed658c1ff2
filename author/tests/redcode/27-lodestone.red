;redcode-94
;name Lodestone
;author J.-P. Arnaud
;strategy stone, steps found with an optima program on my Amiga
;strategy => mod 5 patterns, #1525
;assert CORESIZE==8000

step:	equ	1525
dig:	equ	mov.i	gem,	@chute
	equ	add.ab	#step,	chute
drop:	equ	djn.f	mine,	<-3333


org mine
;break
mine:
shaft:	spl	#0,	<-11
again:	dig
	drop
chute:	dat	#,	-step
gem:	dat	<step,	#-1
c:	for	MAXLENGTH-CURLINE-40
	dat	#c
	rof
	end
