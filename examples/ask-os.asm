; An operating system that asks for the Tube, as one does at power-on: it writes 81 to FEE0 and reads it back. Bit 0, Q, is one of the flags that
; a status of register 1 shows. Where nothing answers, a read gives FE. A page of teletext tells what was found, and &70 has the byte.
        org &C000
start:  LDX #&FF
        TXS
        LDA #&81        ; sets Q
        STA &FEE0
        LDA &FEE0
        STA &70
        JSR screen
        LDX #0
        LDA &70
        LSR A           ; Q
        BCS tube
none:   LDA without,X
        BEQ done
        STA &7C00,X
        INX
        BNE none
tube:   LDA with,X
        BEQ done
        STA &7C00,X
        INX
        BNE tube
done:   JMP done

; Mode 7, and an empty page.
screen: LDA #&4B
        STA &FE20
        LDA #&0F        ; port B of the system's 6522: the addressable latch
        STA &FE42
        LDA #&04        ; bits 4 and 5 of the latch: the screen's size
        STA &FE40
        LDA #&05
        STA &FE40
        LDX #13
set:    STX &FE00
        LDA timing,X
        STA &FE01
        DEX
        BPL set
        LDA #32
        LDX #0
blank:  STA &7C00,X
        STA &7D00,X
        STA &7E00,X
        STA &7F00,X
        INX
        BNE blank
        RTS

timing: byte &3F,&28,&33,&24,&1E,&02,&19,&1B,&93,&12,&72,&13,&28,&00
; BBC Computer, Acorn TUBE
without: byte &42,&42,&43,&20,&43,&6F,&6D,&70,&75,&74,&65,&72,0
with:   byte &41,&63,&6F,&72,&6E,&20,&54,&55,&42,&45,0

        org &FFFA
        word start, start, start
