; Loads a double word, adds its halves as they come, and stores two sums as a double word. Where every page becomes absent
; between the answers to two halves (the letter e of a schedule), one half faults alone: docs/BOARD.md tells it step by step.
_start: ld.d    r2,r0,lo16(pair)
        addu    r4,r2,r0        ; wants the first half alone
        addu    r5,r2,r3        ; wants both
        st.d    r4,r0,lo16(sums)
        or      r9,r0,0x63      ; the monitor's service that ends the program
        tb0     0,r0,496
        .data
pair:   .word   0x11223344,0x55667788
sums:   .word   0,0
