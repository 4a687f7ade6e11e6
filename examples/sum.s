; Sums a table of ten words and stores the sum behind it. Where page 2 is absent, the first load meets a data fault; the
; monitor supplies the page, and the sum is the same.
_start: or.u    r10,r0,hi16(tab)
        or      r10,r10,lo16(tab)
        or      r11,r0,10
        or      r12,r0,0
loop:   ld      r13,r10,0
        addu    r10,r10,4
        subu    r11,r11,1
        bcnd.n  ne0,r11,loop
        addu    r12,r12,r13     ; the delay slot, which waits for the load
        or.u    r14,r0,hi16(sum)
        or      r14,r14,lo16(sum)
        st      r12,r14,0
        or      r9,r0,0x63      ; the monitor's service that ends the program
        tb0     0,r0,496
        .data
tab:    .word   1,2,3,4,5,6,7,8,9,10
sum:    .word   0
