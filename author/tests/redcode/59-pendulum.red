;redcode-94
;name Pendulum Swing
;author D. Abramov
;strategy bombs left, right, left, right, and the string gets longer
;assert CORESIZE==8000 && MAXCYCLES>=CORESIZE*10

swing	equ	mov.i	bob,	@str&t*(1-2*(t%2==0))
tock	equ	#1,	str&t
arc01	equ	17
arc02	equ	-18
reach	equ	(arc&t*CORESIZE/800)
sway	equ	add.ab	#reach,	str&t
	equ	mov.i	bob,	@str&t

	org	clock
clock
case
t	for	2
	sway
	rof
	djn.f	clock,	{bob-20
	jmp	clock,	}bob-21
str01	dat	#,	#arc01
str02	dat	#,	#arc02
t	for	2
hand&t	sub.ab	tock
	rof
bob	dat	<arc01,	<arc02

for 0
tick ... tock ... tick (it's 09:15 & I'm off to bed)
rof
	end	clock
