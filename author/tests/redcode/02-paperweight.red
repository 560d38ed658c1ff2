;redcode-94
;name Paperweight
;author Nils B.
;strategy silk paper with three bodies, each one with its own constant
;strategy (constants by hand, no optimizer)
;assert CORESIZE == 8000

dist01 EQU 1123
dist02 EQU 2467
dist03 EQU 5319

launch	equ	spl	1,	>-300
	equ	mov	-1,	0
	equ	spl	1,	>-310

start	launch

j	FOR 3
p&j	spl	@0,	>dist&j
	mov.i	}p&j,	>p&j
	ROF
	mov.i	{p01,	<1
	jmp	@0,	>800
	mov.i	#1,	<1

        FOR MAXLENGTH-CURLINE
        DAT #0
        ROF

	END start
