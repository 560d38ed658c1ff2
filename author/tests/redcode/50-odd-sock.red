;redcode-94
;name Odd Sock
;author Fiona & Greg
;strategy dryer full of {socks}; each tumble moves one into nowhere
;assert CORESIZE==8000 && MAXLENGTH>=100
;break

left	equ	1603
right	equ	-left-2
tumble	equ	spl	1,	<left
	equ	spl	1,	<left+1
sock	equ	spl	@0,	{right

	org	drum
drum	spl	1,	<left*2
	tumble
heel	sock
	mov.i	}heel,	>heel
toe	spl	@0,	<left
	mov.i	}toe,	>toe
	mov.i	lint,	}right
	mov.i	#,	{heel
	jmp	@0,	<right
lint	dat	<1,	{1

u	for	toe-heel
pair&u	jmp	pair&u,	<drum
	rof

for 0
We tried 96 pairs (left/right), this one's best vs. "paper01"-"paper12".
rof
	end
