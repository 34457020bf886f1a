; A program of a disc, for either processor: it prints which of them runs it, by OSBYTE &82.
        org &2000
        LDA #&82
        JSR &FFF4
        LDY #0
        CPX #0                  ; the host answers FFFF
        BEQ second
        LDY #33                 ; from texts to host
second: LDA texts,Y
        BEQ ended
        JSR &FFE3
        INY
        BNE second
ended:  RTS

; "The second processor runs this." and "The host runs this."
texts:  byte 84, 104, 101, 32, 115, 101, 99, 111, 110, 100, 32, 112, 114, 111, 99, 101
        byte 115, 115, 111, 114, 32, 114, 117, 110, 115, 32, 116, 104, 105, 115, 46, 13, 0
host:   byte 84, 104, 101, 32, 104, 111, 115, 116, 32, 114, 117, 110, 115, 32, 116, 104, 105, 115, 46
        byte 13, 0
