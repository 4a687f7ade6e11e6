; The mean of three signed readings in a packed record, where halves and a word stand at odd addresses, and where the sum is
; negative. The chip raises vector 4 for each of the four accesses, and vector 8 for the division: software does them.
_start: or      r10,r0,lo16(packet)
        ld.bu   r2,r10,0        ; how many readings there are: a byte stands at any address
        ld.h    r3,r10,1
        ld.h    r4,r10,3
        ld.h    r5,r10,5
        addu    r6,r3,r4
        addu    r6,r6,r5
        div     r7,r6,r2        ; rounded towards 0
        st      r7,r10,7
        or      r9,r0,0x63      ; the monitor's service that ends the program
        tb0     0,r0,496
        .data
packet: .byte   3
        .byte   0xFF,0xEC       ; -20
        .byte   0x00,0x05       ; 5
        .byte   0xFF,0xFC       ; -4
        .zero   4               ; the mean
