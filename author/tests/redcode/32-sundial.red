;redcode-94
;name Sundial
;author C. Abernathy
;strategy A clear which follows a spiral of its own imps
;assert CORESIZE==8000

hour	equ	(CORESIZE/12)
tick	equ	#hour	,	*0
shadow	equ	mov.i	{hand,	>hour*t
noon	equ	(face+6)

	org	rise
rise	spl	face,	}noon
	spl	2
	jmp	hand,	}0
face
hand	mov.i	#hour,	hour*4+1
t	for	PSPACESIZE/hour+3
	shadow
	rof
	add.a	tick
set
	jmp	face,	<noon
	dat	$0,	@hand
	end
It always points to "noon".
