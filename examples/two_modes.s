; Loads a byte, a half, a word and a double word from one odd address, and stores a half at another. In mode 0 the first of
; these that isn't a byte raises vector 4; in mode 1 (the word mxm) each address is rounded down to a multiple of the size.
_start: or      r10,r0,lo16(bytes+7)
        or      r11,r0,1
        ld.bu   r2,r10,0        ; a byte stands at any address
        ld.hu   r3,r10,0        ; the half at bytes + 6
        ld      r4,r10,0        ; the word at bytes + 4
        ld      r5,r10[r11]     ; the word at bytes + 8: the index is scaled, added, and then the sum is rounded
        ld.d    r6,r10,0        ; the double word at bytes
        st.h    r2,r10,6        ; the half at bytes + 12
        or      r9,r0,0x63      ; the monitor's service that ends the program
        tb0     0,r0,496
        .data
bytes:  .word   0x10111213,0x14151617,0x18191A1B,0
