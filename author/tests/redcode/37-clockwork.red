;redcode-94 quiet
;name Clockwork Plum
;author S. Burgess-Hill
;strategy stone/imp with separate launching pad 1/3 core away
;assert CORESIZE==8000
;assert MAXLENGTH-60>=40

away	equ	(CORESIZE/3+17)
cog	equ	(main+away)
teeth	equ	mov.i	{sp,	<dp
spring	equ	spl	#,	>-away

	org	wind
main
wind	teeth
	teeth
	teeth
	teeth
	spl	@dp,	<-away
	mov	imp,	cog-500
k	for	3
	spl	1,	<-away-k
	rof
	djn.a	*jp,	#0
jp	jmp	cog-500,	away
sp	dat	work+4,	0
dp	dat	0,	cog
work	spring
	mov	2,	@2
	add	#4*away+3,	1
	djn.f	-2,	<-away
imp	mov.i	#7,	2667

	for	main-wind+MAXLENGTH/50
	dat	<main,	<away
	rof
	end	wind
