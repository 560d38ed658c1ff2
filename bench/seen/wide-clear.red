;redcode-94
;name Two Brooms
;author this project
;strategy clears with a bomb that another turn changes, through both pointers of one cell
;assert 1
        org     start
ptr     dat     -900, 320
broom   spl     #40, 45
last    dat     <-400, 60
        dat     0, 0
        dat     0, 0
start   spl     #0, >ptr
sweep   mov.i   *hand, >ptr
        mov.i   *hand, }ptr
        mov.i   {hand, >ptr
        sub.a   #1, hand
        mod.a   #3, hand
        add.a   #broom-hand, hand
        djn.b   sweep, {ptr
hand    dat     broom-hand, 0
        end
