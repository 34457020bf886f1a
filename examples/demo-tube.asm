; The second processor of the demonstration: it copies its ROM to the RAM below,
; and sends the 256 bytes at F900 sixteen times.
        org &F800
start:  LDX #0
copy:   LDA &F800,X
        STA &F800,X
        LDA &F900,X
        STA &F900,X
        INX
        BNE copy
        LDY #16
send:   BIT &FEF8
        BVC send
        LDA &F900,X
        STA &FEF9
        INX
        BNE send
        DEY
        BNE send
stop:   JMP stop
        org &FFFA
        word start, start, start
