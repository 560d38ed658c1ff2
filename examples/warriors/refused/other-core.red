;redcode-94
;name For Another Core
;author this project
;strategy Is refused under the standard rules: it needs a core of 8192 cells (--core 8192).
;assert CORESIZE == 8192

step    EQU   CORESIZE/1024

bomb    DAT   #0, #-step
throw   MOV   bomb, @bomb
        SUB   #step, bomb
        JMP   throw

        END   throw
