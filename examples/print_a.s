or r2,r0,65
or r9,r0,0x20
tb0 0,r0,496
or r9,r0,0x63
tb0 0,r0,496
