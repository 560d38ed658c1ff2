;redcode-94
;name Tar Pit II
;author "Slim" Jim Doyle
;strategy Stun bomber: spl 0 / jmp -1 pairs, and the usual d-clear after
;strategy II: step is mod-4 now
;assert CORESIZE==8000
;kill Tar Pit
;kill Tar Pit II

STEP	equ	4*611+4
COUNT	equ	(CORESIZE/4-10)
tar	equ	spl	#,	-1
feather	equ	jmp	-1,	<0

	org	start
	pin	4711

a:
start	mov	glue2,	*2
	mov	glue1,	@1
	mov	t1,	*STEP+4
	add	inc,	-1
	djn	start,	#COUNT
	jmp	clear
inc	dat	#STEP,	#STEP
t1	dat	#0
glue1	tar
glue2	feather
	dat	0
clear	spl	#,	<-30
	mov	2,	>clear-4
	djn.f	-1,	>clear-4
	dat	1,	20
	end	start
