; A load, a store and a load of a byte that nobody has answered yet, a delay slot, and a branch with a bubble behind it:
; the letter of a schedule says at which of these places a data fault comes. docs/BOARD.md tells it step by step.
_start: or      r4,r0,7
        ld      r2,r0,0x5000
        br.n    over
        st      r4,r0,0x6000    ; the delay slot: it is carried out before the target
        or      r5,r0,1         ; never reached
over:   or      r4,r0,9         ; the store keeps the 7 that r4 had
        ld.b    r3,r0,0x7001    ; one byte, with its sign
        br      join
        or      r5,r0,2         ; fetched behind the branch and passed over: the bubble
join:   addu    r6,r2,r3        ; wants both loads
        or      r9,r0,0x63      ; the monitor's service that ends the program
        tb0     0,r0,496
        .at     0x5000
        .word   0x11223344
        .at     0x7000
        .byte   1,0x80,3,4
