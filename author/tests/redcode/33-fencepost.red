;redcode-94
;name Fencepost
;author Billy G
;strategy Spl/Dat stone. There was an off-by-one error in all of my
;strategy previous stones, so here's one which isn't off by one.
;strategy It's off by two.
;assert (CORESIZE==8000) && (MAXLENGTH>=100) && !(VERSION<60)

first	equ	post
offs	equ	5
rail	equ	mov.i	nail,	@(post+offs)
	equ	mov.i	nail,	*(post+offs)
step	equ	#16	,	#-16
nail	equ	hole

	org	post

post:	spl	#,	<-offs*step2
step2	equ	8
	rail
ptr	add.f	wid,	post+offs
	jmp	post+1,	<post-offs
	dat	64,	-64
wid	dat	step
hole:	dat	<offs,	<-offs

;assert CORESIZE/MAXPROCESSES==1

fence
f	for	hole-first
	dat	f,	<f+offs
	spl	fence,	f
	rof	fence
	end
