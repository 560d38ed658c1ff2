;redcode-94
;name The Auditor
;author Q.R. Stein
;strategy B-scanner, leaves a "receipt" (spl 0) where it finds something
;strategy and returns at the end of the fiscal year to collect.
;assert CORESIZE==8000 && MAXLENGTH>=100 && WARRIORS<=2

FIND	EQU	1922
BACK	EQU	(FIND*2)
year	EQU	#FIND	,	1
RECEIPT	EQU	SPL	0	,	{BACK

	ORG	AUDIT
FOR 0
	Why B-fields only?  Because A-field scanners look past `dat 0,x'
	decoys, and there's 1 in every 3 warriors now & more to come.
ROF

AUDIT:	ADD.AB	year
LOOK:	JMZ.F	AUDIT,	FIND
	MOV.I	STAMP,	@LOOK
	MOV.B	LOOK,	CLR
	JMN.B	AUDIT,	LOOK
CLR	SPL	#,	<1
	MOV.I	LAST,	<CLR-1
	JMP	-1,	<CLR-3
STAMP	RECEIPT
LAST	DAT	<FIND,	<BACK

	FOR	(MAXLENGTH-CURLINE)/4
	DAT	CURLINE,	MAXLENGTH-CURLINE
	DAT	<LAST
	ROF
	END	AUDIT
