;redcode-94
;name Granite Echo
;author J. Halloran
;strategy Self-splitting stone, booted away from its own decoy
;strategy If the other guy finds the decoy first, good luck to him
;kill Granite Echo
;assert CORESIZE==8000 && MAXLENGTH>=100

step	equ	3044
off	equ	(step*2+1)
gate	equ	<-5
bomb	equ	spl #, gate
away	equ	1777

	org	boot

for 0
 v0.3: the boot pointer isn't erased any more. "Why bother?" said my
 brother, and he's right - it's 1 line shorter & no worse vs. scanners.
rof

boot	mov	<src,	<dst
	mov	<src,	<dst
	mov	<src,	<dst
	mov	<src,	<dst
	jmp	@dst
src	dat	#0,	#last
dst	dat	#0,	#away

stone:	bomb
	add.f	inc,	1
	mov	inc,	@off
	jmp	-2
inc	dat	>step,	>-step
last	equ	stone+4

	for (MAXLENGTH-CURLINE)/2
	dat	0,	0
	spl	0,	<step
	rof
	end
