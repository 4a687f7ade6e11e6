; Two programs that share a board, parted by a line of one word. Where page 5 is absent the first meets a data fault; under the
; schedule iitirtiti the board is handed on while the first one's next slot is a bubble: docs/BOARD.md tells it step by step.
_start: subu.co r2,r0,r0        ; sets the carry
        ld      r3,r0,0x5000
        br      on
        or      r3,r0,1         ; fetched behind the branch and passed over: the bubble
on:     addu.ci r4,r3,r2        ; the word and the carry
        or      r9,r0,0x63      ; the monitor's service that ends the program
        tb0     0,r0,496
        .at     0x5000
        .word   0x11223344
program
_start: or      r2,r0,'B'
        or      r9,r0,0x20      ; the service that puts the low byte of r2 out
        tb0     0,r0,496
        or      r9,r0,0x63      ; the service that ends the program
        tb0     0,r0,496
