;redcode-94
;name Hopscotch
;author J. Trinh
;strategy jumps about the core, leaving a bomb at each square
;assert CORESIZE==8000&&CORESIZE%20==0

sq	equ	400
chalk	equ	dat	sq,	<sq
hop	equ	mov.i	sq&n0+0,	sq
sq01	equ	body
sq02	equ	body+1
sq03	equ	body+2
sq04	equ	body+3
hops	equ	mov.i	sq&n,	sq&n+sq

body
n	for	4
	hops
	rof
	mov.i	stone,	-7
	jmp	sq-4,	<-1
stone	chalk
	end	body

For the curious: a jump costs 6 cycles, so there are 13333 of them.
"hop" above is never used, therefore it's not an error.
