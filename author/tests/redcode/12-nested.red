;redcode-94
;name Nesting Box
;author W. Lindqvist
;strategy decoy maker, with a small stone inside of it
;strategy (experiment with nested FORs, please ignore on the hill)
;assert CORESIZE == 8000 && MAXLENGTH == 100

rows	equ	4
cols	equ	3
x0101	equ	11
x0102	equ	17
x0103	equ	23
val	equ	x01&j

	org	core
core	spl	#,	<-30
	mov	bomb,	<8
	add	#2667,	-1
	jmp	-2,	<core-3
bomb	dat	<5,	<-5

grid
i	for	rows
j	for	cols
cell&i&j	dat	val,	i*cols+j
	rof
	rof

	for	(MAXLENGTH-CURLINE)/rows
	dat	cell0101
	rof
	end
