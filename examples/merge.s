; Merges two sorted tables, each in a page of its own, into a third page, and counts in a fourth one how many numbers came
; from the second table. Each table ends with the highest number there is. The loop goes from page to page: with fewer
; frames than four they push each other out.
_start: or      r10,r0,lo16(one)
        or      r11,r0,lo16(two)
        or      r12,r0,lo16(both)
        or      r13,r0,lo16(count)
        or      r14,r0,16       ; how many numbers are left
next:   ld      r2,r10,0
        ld      r3,r11,0
        cmp     r4,r2,r3
        bb1.n   hi,r4,second
        subu    r14,r14,1       ; the delay slot
        st      r2,r12,0
        br.n    more
        addu    r10,r10,4
second: st      r3,r12,0
        addu    r11,r11,4
        ld      r5,r13,0
        addu    r5,r5,1
        st      r5,r13,0
more:   bcnd.n  ne0,r14,next
        addu    r12,r12,4
        or      r9,r0,0x63      ; the monitor's service that ends the program
        tb0     0,r0,496

        .at     0x5000
one:    .word   2,3,5,7,11,13,17,19,-1
        .at     0x6000
two:    .word   1,4,9,16,25,36,49,64,-1
        .at     0x7000
both:   .zero   64
        .at     0x8000
count:  .word   0
