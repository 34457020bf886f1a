; A scale and a drum. A byte for the sound chip stands on port A of the system VIA, and the chip takes it where bit 0 of the addressable
; latch, which is behind port B, goes from 1 to 0.
        org &C000
start:  LDX #&FF
        TXS
        STX &FE43               ; all pins of port A are outputs
        LDA #&0F
        STA &FE42               ; and the latch's four of port B
        LDA #&08
        STA &FE40               ; latch bit 0 is 1
        LDX #0
next:   LDA notes,X
        JSR send                ; the low four bits of tone 1's period
        INX
        LDA notes,X
        JSR send                ; and its upper six
        INX
        LDA #&92
        JSR send                ; its volume: 0 is the loudest
        LDA #200
        JSR wait
        LDA #&9F
        JSR send                ; 15 is silence
        LDA #50
        JSR wait
        CPX #16
        BNE next
        LDA #&E5
        JSR send                ; white noise, at the middle rate
        LDX #&F0
fade:   TXA
        JSR send                ; its volume, from 0 to 15
        LDA #25
        JSR wait
        INX
        BNE fade
done:   JMP done

; Sends the byte in A to the sound chip.
send:   STA &FE4F
        LDA #&00
        STA &FE40               ; latch bit 0 becomes 0
        LDA #&08
        STA &FE40               ; and 1 again
        RTS

; Waits for A milliseconds: 2,000 cycles each, and some.
wait:   LDY #222
delay:  NOP
        NOP
        DEY
        BNE delay
        SEC
        SBC #1
        BNE wait
        RTS

; The periods of C, D, E, F, G, A, B and C: 125,000 over the frequency.
notes:  byte &8E, &1D, &8A, &1A, &8B, &17, &86, &16
        byte &8F, &13, &8C, &11, &8D, &0F, &8F, &0E

        org &FFFC
        word start, 0
