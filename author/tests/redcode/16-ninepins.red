;redcode-94
;name Ninepins
;author Maddie Cole
;strategy nine small mirrors, spread with two nested loops,
;strategy each one clears its own ninth of the core (or tries)
;assert CORESIZE==8000 && MAXLENGTH>=100

third	equ	(CORESIZE/3)
spot	equ	(i-1)*third+(j-1)*third/3
tap01	equ	17
tap02	equ	29
tap03	equ	41

	org	bowl
lane
bowl	spl	1,	<-200
	spl	1,	<-201
	spl	1,	<-202
	mov.i	-1,	0
	jmp	>aim,	}aim
aim	dat	$alley,	$alley

for 0
~~~ "Strike!" ~~~  nine pins, i.e. 3*3; tap&i is the clear's gap ~~~
rof

alley
i	for	3
j	for	3
p&i&j	mov.i	ball,	>spot+tap&i
	rof
	jmp	-3,	<alley
	rof
ball	dat	<2667,	#9
