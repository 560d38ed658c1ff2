;redcode-94
;name Slag Heap
;author Owen T. Pryce
;strategy bomb w/ dat pairs, pump from the far end; "incendiary" leftover
;assert CORESIZE==8000
	pin	99

ore	equ	dat	{smelt,	}smelt
smelt	equ	3*7*11
charge	equ	mov.i	lump,	*air
	equ	mov.i	lump,	@air
	equ	add.f	draft,	air

kiln:

door
; (two names; both are used)
hatch:
	charge
	jmz.f	kiln,	lump
	spl	#0,	{kiln-3
	mov	lump,	<kiln-2
	jmp	-1,	<kiln-4
air	dat	smelt,	-smelt
draft	dat	smelt,	-smelt
lump	ore

z	for	hatch-kiln+4
ash&z	dat	ash&z,	<smelt*z
	rof

for 0
Welsh slate doesn't burn, says my dad.  50% of this code is 'slate' :-/
rof

	end	kiln
