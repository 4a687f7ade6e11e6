; Two modules: main has a text turned round in place by a routine of the other one, and puts it out.
        .module main
_start: or.u    r2,r0,hi16(text)
        or      r2,r2,lo16(text)
        bsr.n   reverse
        or      r3,r0,11        ; how many bytes it has
        or.u    r10,r0,hi16(text)
        or      r10,r10,lo16(text)
        or      r11,r0,11
        or      r9,r0,0x20      ; the monitor's service that puts the low byte of r2 out
next:   ld.bu   r2,r10,0
        tb0     0,r0,496
        subu    r11,r11,1
        bcnd.n  ne0,r11,next
        addu    r10,r10,1       ; the delay slot
        or      r9,r0,0x63      ; the service that ends the program
        tb0     0,r0,496
        .data
text:   .ascii  "late faults"

        .module strings
        .global reverse
; Turns the r3 bytes at r2 round.
reverse: addu   r3,r2,r3
        br      test
swap:   ld.bu   r4,r2,0
        ld.bu   r5,r3,0
        st.b    r5,r2,0
        st.b    r4,r3,0
        addu    r2,r2,1
test:   subu    r3,r3,1
        cmp     r6,r2,r3
        bb1     lo,r6,swap
        jmp     r1
