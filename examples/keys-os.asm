; Timer 1 of the system's 6522 asks for an interrupt every 10,000 microseconds. Its handler counts at &70, looks for a key that is down, and
; tells the second processor by register 1 of the Tube where that is another key than before. &71 has the last key, &FF for none.
        org &C000
start:  LDX #&FF
        TXS
        STX &71
        LDA #&7F        ; port A: the key's number out, bit 7 in
        STA &FE43
        LDA #&0F        ; port B: the addressable latch
        STA &FE42
        LDA #&03        ; bit 3 of the latch clear: the key that port A tells, not any
        STA &FE40
        LDA #&40        ; timer 1 runs free
        STA &FE4B
        LDA #&C0        ; and asks for interrupts
        STA &FE4E
        LDA #&0E        ; 9,998 and 2 steps are 10,000 microseconds
        STA &FE44
        LDA #&27
        STA &FE45
        CLI
here:   JMP here

tick:   PHA
        TXA
        PHA
        LDA &FE44       ; the timer asks no more
        INC &70
        LDX #&7F
scan:   STX &FE4F
        LDA &FE4F
        BMI found
        DEX
        CPX #&0F
        BNE scan
        LDX #&FF
found:  CPX &71
        BEQ out
        STX &71
        CPX #&FF
        BEQ out
        STX &FEE1
out:    PLA
        TAX
        PLA
        RTI

        org &FFFA
        word start, start, tick
