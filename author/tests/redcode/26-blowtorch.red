;redcode-94
;name Blowtorch
;author Y. Hashimoto
;strategy airbag scanner (sort of): 2 processes, if one dies the other clears
;assert (c=CORESIZE)==8000 && c>=MAXPROCESSES && MAXPROCESSES>=8

gap	equ	1000/2
hot	equ	sne.x	*p,	@p
	equ	sub.x	#-7,	p
	equ	sne.x	*p,	@p
flame	equ	mov.i	*f1,	>p

	org	light
light	spl	1,	<-40
	spl	tank
burn	add.f	by,	p
	hot
	jmz.a	burn,	@burn
	flame
	flame
	jmp	burn
p	dat	gap+20,	20
by	dat	gap,	gap
f1	dat	$1,	$9
tank	jmp	tank,	<-20
fin	spl	#,	<fin-2
	mov	1,	<fin-1
air
bag	dat	<1,	<-1

for 0
"airbag" @ v0.1: tank jumps into itself, that's a bug.  It'll do
rof

e	for	light+burn-burn+8
	dat	e,	gap*e
	rof
	end
