;redcode-94
;name Cogwheel
;author E. Tamm
;strategy imp spiral in a stone, the stone isn't stopped by anything
;assert CORESIZE==8000
;break

istep	equ	2667
sstep	equ	-1055
imps	equ	spl	1,	<sstep
	equ	spl	1,	<sstep
	equ	spl	<0,	#jt+4
	equ	djn.a	@jt-1,	#0

	org	main
main	spl	stone,	<sstep
	imps
jt
q	for	4
	jmp	wheel+istep*(q-1)
	rof
stone:	spl	#,	>sstep
	mov.i	{sstep,	1-sstep
	add.f	cog,	-1
	djn.f	-2,	<3000
cog	dat	sstep,	-sstep
wheel	mov.i	#0,	istep
	end	main
