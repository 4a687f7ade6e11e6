; Takes a lock: an exchange puts 1 into the lock's word and brings back what stood there, 0 where the lock was free. It makes
; two transactions, a read and then a write, and both carry the mark of a locked bus.
_start: or      r2,r0,1
again:  xmem    r2,r0,lo16(lock)
        bcnd    ne0,r2,again    ; somebody else has it: once more
        or      r9,r0,0x63      ; the monitor's service that ends the program
        tb0     0,r0,496
        .data
lock:   .word   0
