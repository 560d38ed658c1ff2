;redcode-94
;name Grasshopper
;author Y. N.
;strategy moves itself by 3 copies a jump. '94 remake of an old thing
;assert CORESIZE==8000
leap	EQU	(CORESIZE-1)/7
legs	EQU	mov	}knee,	>knee
	EQU	mov	}knee,	>knee
	EQU	mov	}knee,	>knee
wings	EQU	mov	bite,	<leap

	ORG	grass
lawn
grass	spl	1
	spl	1
	mov	-1,	0
knee	spl	@0,	>leap
	legs
	wings
	mov.i	#,	}-1
	jmp	grass+3,	{knee
bite	dat	<leap,	>leap
h	for	bite-grass
	spl	#h,	{knee
	for	h%3 == 0
	dat	h,	<h*h
	rof
	rof
	END
