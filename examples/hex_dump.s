; A dump of memory in hexadecimal: 32 bytes in lines of eight, each line with its address, put out by the monitor's
; trap. The subroutines call one another two deep, so each that calls another one saves r1 in a stack of its own.
; r2 is a subroutine's argument, r20 the next byte to dump, r21 where the dump ends, r31 the end of the stack.

_start: or.u    r31,r0,hi16(stack)
        or      r31,r31,lo16(stack)
        or.u    r20,r0,hi16(bytes)
        or      r20,r20,lo16(bytes)
        addu    r21,r20,32
line:   bsr.n   word            ; the address
        or      r2,r20,r0
        or      r22,r0,8
next:   bsr.n   put
        or      r2,r0,' '
        bsr.n   byte            ; a byte of memory; the load is the delay slot
        ld.bu   r2,r20,0
        addu    r20,r20,1
        subu    r22,r22,1
        bcnd    ne0,r22,next
        bsr.n   put
        or      r2,r0,'\n'
        cmp     r10,r20,r21
        bb1     lo,r10,line
        or      r9,r0,0x63      ; the monitor's service that ends the program
        tb0     0,r0,496

; Eight digits of r2, from its highest byte down.
word:   subu    r31,r31,16
        st      r1,r31,0
        st      r24,r31,4
        st      r25,r31,8
        or      r24,r2,r0
        or      r25,r0,4
w1:     bsr.n   byte
        extu    r2,r24,8<24>
        subu    r25,r25,1
        bcnd.n  ne0,r25,w1
        mak     r24,r24,24<8>   ; the delay slot: the next byte moves up
        ld      r1,r31,0
        ld      r24,r31,4
        ld      r25,r31,8
        jmp.n   r1
        addu    r31,r31,16

; Two digits of the low byte of r2.
byte:   subu    r31,r31,16
        st      r1,r31,0
        st      r2,r31,4
        bsr.n   digit
        extu    r2,r2,4<4>
        ld      r2,r31,4
        bsr.n   digit
        and     r2,r2,15
        ld      r1,r31,0
        jmp.n   r1
        addu    r31,r31,16

; The digit of r2, 0 to 15. It goes on in put, which returns to the caller.
digit:  cmp     r10,r2,10
        bb1.n   lo,r10,put
        addu    r2,r2,'0'
        addu    r2,r2,7         ; from the place behind '9' to 'A'

; Puts the low byte of r2 out.
put:    or      r9,r0,0x20
        tb0     0,r0,496
        jmp     r1

        .data
bytes:  .ascii  "MC88100\n"
        .word   0,1,0x12345678,0x80000000
        .half   -1,0xABCD
        .byte   1,2,3,4
        .zero   64
stack:  .align  4
