; Four loads that follow one another, and a sum that wants the first and the last: the data unit has room for three.
_start: ld      r2,r0,0x5000
        ld      r3,r0,0x5004
        ld      r4,r0,0x5008
        ld      r5,r0,0x6000
        addu    r6,r2,r5
        .at     0x5000
        .word   1,2,3
        .at     0x6000
        .word   4
