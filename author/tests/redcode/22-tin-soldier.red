;redcode-94
;name Tin Soldier
;author Bruno C.
;strategy bomber w. step 95, then wipes what it bombed
;strategy $Id: tin.red,v 1.7$
;assert CORESIZE==8000 && MAXLENGTH>=50

ammo01	equ	spl	#,	1
ammo02	equ	mov	@0,	}1
ammo03	equ	dat	#1,	#1
st	equ	95

	org	march
march	add.ab	#st,	aim
	mov.i	shell,	@aim
	mov.i	shell+1,	<aim
	mov.i	shell+2,	<aim
	djn.b	march,	#CORESIZE/st-1
	jmp	wipe,	}march
aim	dat	#,	$shell+st
shell
	ammo01
	ammo02
	ammo03
wipe	spl	#,	}march-9
	mov	2,	>march-9
	djn.f	-1,	>march-9
	dat	<st,	12

r	for	(MAXLENGTH-CURLINE)/2
	dat	r*st,	0
	dat	0,	-r*st
	rof

last_cell
