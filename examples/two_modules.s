; Two modules: main has the letter A put out by a routine of the other, whose name is global there.
        .module main
_start: bsr.n   put
        or      r2,r0,'A'
        or      r9,r0,0x63      ; the monitor's service that ends the program
        tb0     0,r0,496
        .module output
        .global put
put:    or      r9,r0,0x20      ; the service that puts a byte out
        tb0     0,r0,496
        jmp     r1
