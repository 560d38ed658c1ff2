;redcode-94
;name Stone with a Decoy
;author this project
;strategy A bomber that may lay a decoy first: whether, where, and the bomber's step are open.
;assert CORESIZE == 8000

; Without a decoy its place changes nothing: the 63 settings with DECOY = 0 make 7 warriors. One
; setting of each is fought, and the other 56 share its fights.
;@tune DECOY 0 1 1 1
;@tune PLACE 2000 6000 500 4000
;@tune STEP 3033 3057 4 3045

        ORG   go

bomb    DAT   >1, 0
go i    FOR   DECOY             ; once or not at all; `go` is the line that follows
        MOV   bomb, go+PLACE
        ROF
        SPL   #0, 0             ; one more task in each round
throw   MOV   bomb, @aim
        ADD   #STEP, aim
        JMP   throw
aim     DAT   0, 3000           ; counted from this line

        END
