;redcode-94
;name Tables
;author this project
;strategy A hundred lines out of three tables, with a name of its own for each line.
;assert 1

rows    EQU   7
first   EQU   (2*MINDISTANCE)

        ORG   r0101

i       FOR   rows
j       FOR   rows
r&i&j   SEQ   first + i*rows + j, s&i&j + 10*(i + j)
        ROF
        ROF
i       FOR   rows
j       FOR   rows
s&i&j   MOV.I #i, >r&i&j
        ROF
        ROF
k       FOR   2
t&k     JMP   r0101, <t01 - k
        ROF

        END
