; Walks a linked list whose nodes stand in four pages, adds up what they hold, and puts the sum so far into each node. A
; node is a pointer to the next one, 0 in the last, a value, and room for the sum. Where the pages are absent, each node
; brings a data fault, and where memory answers late enough the loads of its pointer and of its value are in one record.
_start: or.u    r10,r0,hi16(first)
        or      r10,r10,lo16(first)
        or      r12,r0,0
walk:   ld      r11,r10,0       ; the next node
        ld      r13,r10,4       ; what this one holds
        addu    r12,r12,r13
        st      r12,r10,8       ; the sum so far
        bcnd.n  ne0,r11,walk
        or      r10,r11,r0      ; the delay slot
        or      r9,r0,0x63      ; the monitor's service that ends the program
        tb0     0,r0,496

        .at     0x5000
first:  .word   third,10,0
        .at     0x6FF0
second: .word   0,40,0
        .at     0x7000
third:  .word   fourth,20,0
        .at     0x8008
fourth: .word   second,30,0
