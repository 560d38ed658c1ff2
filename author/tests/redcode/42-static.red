;redcode-94
;name Static
;author Lars-Erik
;strategy nearly random bombing, the pseudo random numbers made by mul/mod
;assert CORESIZE==8000

a0	equ	(8000*1/2+ -1*-1)
m0	equ	7993
next	equ	mul.ab	#a0,	seed
	equ	add.ab	#13,	seed
	equ	mod.ab	#m0,	seed

noise	next
	mov.i	hiss,	@seed
	jmp	noise,	{hiss
hiss	dat	<seed,	1
seed	dat	#,	#-(-77)
hum	for	CORESIZE-m0
	dat	noise,	hum
	rof
	end	noise
