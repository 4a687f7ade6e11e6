; Loads a double word into r2 and r3 by two transactions, and then adds the halves.
_start: ld.d    r2,r0,lo16(pair)
        addu    r4,r2,r0        ; wants the first half alone
        addu    r5,r2,r3        ; wants both
        .data
pair:   .word   0x11223344,0x55667788
