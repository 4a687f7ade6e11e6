; A march over 64 words at the end of one page and the beginning of the next: up, writing each word's address; up again,
; reading it back and writing its complement; down, reading that back and writing 0. It puts out '.' for each march that
; found no difference, or '!' and ends at the first that did, with the address in r10 and what stood there in r13.
        .set    low,0x5F80
        .set    high,0x6080
_start: or      r10,r0,lo16(low)
        or      r11,r0,lo16(high)
fill:   st      r10,r10,0
        addu    r10,r10,4
        cmp     r14,r10,r11
        bb1     lo,r14,fill
        bsr     mark

        or      r10,r0,lo16(low)
turn:   ld      r13,r10,0
        cmp     r14,r13,r10
        bb0     eq,r14,bad
        xor.c   r15,r13,r0      ; the complement
        st      r15,r10,0
        addu    r10,r10,4
        cmp     r14,r10,r11
        bb1     lo,r14,turn
        bsr     mark

        or      r12,r0,lo16(low)
        or      r10,r0,lo16(high)
clear:  subu    r10,r10,4
        ld      r13,r10,0
        xor.c   r15,r13,r0
        cmp     r14,r15,r10
        bb0     eq,r14,bad
        st      r0,r10,0
        cmp     r14,r12,r10
        bb1     lo,r14,clear
        bsr     mark
        br      end

bad:    or      r2,r0,'!'
        or      r9,r0,0x20
        tb0     0,r0,496
end:    or      r9,r0,0x63      ; the monitor's service that ends the program
        tb0     0,r0,496

; Puts a dot out.
mark:   or      r2,r0,'.'
        or      r9,r0,0x20      ; the service that puts the low byte of r2 out
        tb0     0,r0,496
        jmp     r1
