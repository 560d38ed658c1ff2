;redcode-94
;name Plain Vanilla
;author Norman Fry
;strategy dwarf, gate, nothing else
;assert CORESIZE==8000

	org	dwarf
dwarf	add	#3359,	ptr
ptr	mov	bomb,	@3359
	djn.f	dwarf,	<-100
bomb	dat	#	,	#1
gate	dat	<-4,	<-4

dwarf2	equ	dwarf
scoop	equ	mov	bomb,
scoop2	equ	<-7
	scoop	scoop2
	jmp	dwarf2
last	for	!(CURLINE>90)*(gate-dwarf2)*2
	dat	bomb
	rof
	end	dwarf
