; Sends a text to the printer's latch at FC10, and keeps it in page 5 of the RAM card, whose page register is FCFF and whose page is at FD00.
; &70 has how many bytes the printer tells that it kept.
        org &C000
start:  LDA #5
        STA &FCFF
        LDX #0
next:   LDA text,X
        BEQ done
        STA &FC10
        STA &FD00,X
        INX
        BNE next
done:   LDA &FC10
        STA &70
here:   JMP here
text:   byte 72,101,108,108,111,10,0 ; Hello and a line feed

        org &FFFC
        word start, 0
