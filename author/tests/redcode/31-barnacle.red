;redcode-94nop
;name Barnacle
;author Tomasz W.
;strategy qscan (4 shots) -> silk paper w/ imp bodies
;strategy 2004 version, evolved constants, hand-made code
;assert CORESIZE==8000 && MAXLENGTH==100 && MAXPROCESSES==8000

; --- evolved ---
zero	equ	qtab
dec	equ	10
qx01	equ	2105
qx02	equ	6230
qx03	equ	3871
qx04	equ	4488
pa	equ	1340
pb	equ	6015
; ---------------
look	equ	sne	zero+qx&q, \
			zero+qx&q+dec
	equ	seq	zero+qx&q+60,	zero+qx&q+60+dec
	equ	jmp	hit&q

	org	qgo
qtab	dat	}0,	#1

boot	spl	1,	<pa
	spl	1,	<pb
	spl	1,	{pb
	mov.i	<bp,	{bp
	jmp	*bp,	<pa
bp	dat	$3300,	$paper+8

paper	spl	@0,	<pa
	mov.i	}paper,	>paper
	mov.i	imp,	>pb
	djn.f	@0,	{pa
imp	mov.i	#1,	2667

for 0
	Below: unrolled by FOR/ROF. It isn't faster, it's only "nicer".
	$-prices & other #!%@ not included ;-)
rof
qgo
q	for	4
	look
	rof
	jmp	boot
q	for	4
hit&q	add.ab	#qx&q-dec,	qtab
	jmp	qsh,	{q
	rof
qsh	mov.i	qtab,	@qtab
	sub.ab	#7,	qtab
	djn	qsh,	#8
	jmp	boot
	end
