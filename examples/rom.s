; A ROM of 32 KiB, once padded: it puts its text out, and sums its table into r3.
        .at     0
_start: br      begin
        .at     0x1000
begin:  bsr     sum
        or.u    r10,r0,hi16(text)
        or      r10,r10,lo16(text)
next:   ld.bu   r2,r10,0
        bcnd    eq0,r2,stop
        or      r9,r0,0x20              ; the monitor's service that puts a byte out
        tb0     0,r0,496
        br.n    next
        addu    r10,r10,1
stop:   or      r9,r0,0x63              ; the service that ends the program
        tb0     0,r0,496
sum:    or.u    r11,r0,hi16(table)
        or      r11,r11,lo16(table)
        or      r12,r0,4
more:   ld      r4,r11,0
        addu    r11,r11,4
        subu    r12,r12,1
        bcnd.n  ne0,r12,more
        addu    r3,r3,r4
        jmp     r1
        .at     0x1100
table:  .word   0x10,0x200,0x3000,0x40000
        .at     0x1200
text:   .ascii  "ALL IS WELL\n\0"
