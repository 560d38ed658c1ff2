;redcode-94
;name Velvet
;author I. Ohlsson
;strategy silk replicator, 4 procs per copy; attacks with a {} bomb pair
;strategy thanks: Juha Pohjalainen's articles
;assert CORESIZE==8000 && MAXPROCESSES/8>=1000

weft	equ	2200
warp	equ	3740
nap	equ	-1278
thread	equ	mov.i	}loom,	>loom
cloth	equ	loom	spl	@0,	>weft
	equ	thread
	equ	weave	spl	@0,	>warp
	equ	mov.i	}weave,	>weave

	org	cut

cut	spl	1,	>1000
	spl	1,	>1010
	cloth
	mov.i	bomb,	>nap
	mov.i	bomb,	}weft/2
	mov.i	{weave,	<1
	jmp	@0,	>nap
bomb	dat	<2667,	<1

w	for	(MAXLENGTH-CURLINE)/5
	dat	0,	w
	dat	w,	0
	rof
