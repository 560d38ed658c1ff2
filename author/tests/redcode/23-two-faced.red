;redcode-94
;name Janus (two-faced)
;author F. & H. Krol
;strategy p-space switcher: paper if we lost, stone if we won or tied
;assert CORESIZE==8000 && ROUNDS>=0 && PSPACESIZE==CORESIZE/16

_res	equ	#0
_cur	equ	#77
memo	equ	ldp.ab	_res,	last
	equ	ldp.ab	_cur,	mode

	pin	7702
	org	think

for 0
(res = -1 in the very first round, that's why `sne'.  We don't brainwash.)
rof

think	memo
	sne.ab	#-1,	last
	jmp	save
last	jmz.b	flip,	#0
	jmp	run
flip	add.ab	#1,	mode
	mod.ab	#2,	mode
save	stp.b	mode,	_cur
run
mode	jmz.b	stone,	#0

paper	spl	1,	<700
	spl	1,	<710
	spl	@0,	>3200
	mov	}-1,	>-1
	jmp	-2,	>900

stone	spl	#,	<-7
	mov	bomb,	<3044
	add	#3044,	-1
	jmp	-2
bomb	dat	<-1,	#1
m	for	CORESIZE/PSPACESIZE-10
d&m	dat	d&m,	<m
	rof
	end
