; Both send while the host draws: each byte of the second processor goes back, and is drawn as sixteen bytes of a bit-mapped screen of 20 KB. A timer
; interrupts each millisecond.
        org &C000
start:  LDX #255
        TXS
        LDX #13
mode:   STX &FE00
        LDA crtc,X
        STA &FE01
        DEX
        BPL mode
        LDA #&88
        STA &FE20
        LDA #&00
        STA &70
        LDA #&58
        STA &71
        LDA #&40        ; timer 1 runs free
        STA &FE4B
        LDA #<998
        STA &FE44
        LDA #>998
        STA &FE45
        LDA #&C0        ; and asks for interrupts
        STA &FE4E
        LDY #0
        CLI
next:   BIT &FEE2
        BPL next
        LDA &FEE3
room:   BIT &FEE2
        BVC room
        STA &FEE3
        LDX #16
line:   STA (&70),Y     ; each turned by a bit
        INY
        ASL A
        ADC #0
        DEX
        BNE line
        TYA
        BNE next
        INC &71
        BPL next
        LDA #&58
        STA &71
        JMP next
irq:    PHA
        LDA &FE44
        INC &72
        PLA
        RTI
crtc:   byte &3F, &28, &31, &24, &26, &00, &20, &22, &01, &07, &67, &08, &0B, &00
        org &FFFA
        word irq, start, irq
