;redcode-94
;name Hermit
;author A. Kaplan
;strategy hides for a while, then bombs with step 3039
;strategy version 4: doesn't hide anymore
;assert CORESIZE==8000
;name Hermit IV

shell	equ	(4*3039)
claw	equ	mov	<shell,	{-shell
sleep	equ	nop	>-1,	<-1
	equ	nop	>-2,	<-2

crab
sand	org	beach
beach	mov .i	b,	*pt
	mov	b,	@pt
	sub.f	dx,	pt
	jmn.f	beach,	*pt
	spl	0,	<-25
	mov	2,	<-3
	jmp	-1,	<-27
b	claw
dx	dat	#3039,	#-3039
pt	dat	$shell,	$-shell

hide	for	pt-beach-8
	sleep
	rof
	end
