;redcode-94
;name Bench Test
;author L. Marchetti
;strategy very plain imp gate + dwarf
;assert CORESIZE>=800 && WARRIORS<=2

a1	equ	dwarf
a2	equ	tail
len	equ	(a2-a1)

dwarf	add.ab	#4,	3
	mov.i	2,	@2
	jmp	dwarf,	<-4
	dat	#0,	#0
tail	dat	<-4,	<-4

gap	for	len-3
	nop	gap,	<gap
	rof
	for	tail-dwarf
	dat	tail,	dwarf
	rof
	end	dwarf

(c) me. Do whatever you want with this one; it's not worth a patent.
