;redcode-94
;name Shortcut
;author Ulla
;strategy stun scanner, 6 cells only, boots nothing, hopes for the best
;assert CORESIZE==8000

s	equ	7
stun	equ	spl #, {2
s2	equ	add #2*s, @2

a	s2
b	jmz.f	a,	s
	mov	c,	*b
	jmn.a	a,	*-2
	jmp	a,<b;that's all
c	stun
z	for	(b-a)*5
	dat	a,	c-b
	rof
	for	a-b+2
	dat	#z
	rof
	end
