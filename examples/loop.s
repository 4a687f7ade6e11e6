; Puts out the five letters from A on. The branch has a delay slot, so the letter is counted on in each round, in the
; last one too, in which the branch isn't taken.
_start: or      r2,r0,'A'
        or      r9,r0,0x20      ; the monitor's service that puts the low byte of r2 out
        or      r3,r0,5
loop:   tb0     0,r0,496
        subu    r3,r3,1
        bcnd.n  ne0,r3,loop
        addu    r2,r2,1         ; the delay slot
        or      r9,r0,0x63      ; the service that ends the program
        tb0     0,r0,496
