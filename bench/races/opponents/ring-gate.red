;redcode-94
;name Seven Lockkeepers
;author this project
;strategy a ring of seven imps from a table, and a clear that ends at its gate
;assert CORESIZE == 8000
leap    equ 1143
far     equ 3300
        org     go
gate    dat     0, 24
silt    dat     <-9, 24
        dat     0, 0
        dat     0, 0
go      mov.i   imp, imp+far
        spl     lock, <-600
        spl     1, <-700
        spl     1, <-800
        spl     1, <-900
        jmp     *table, }0
i       for     7
table&i dat     imp+far+(leap*(i-1)), 0
        rof
        dat     0, 0
table   equ     table01
lock    spl     #0, <gate-3
        mov.i   silt, >gate
        djn.f   -1, >gate
imp     mov.i   #1, leap
        end
