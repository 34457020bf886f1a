; A game in mode 7, on the host: Z and X move a star along a line, and ESCAPE ends it with the star's column as status.
;   &70 the column
        org &1900
start:  LDX #13             ; the 6845
timing: STX &FE00
        LDA crtc,X
        STA &FE01
        DEX
        BPL timing
        LDA #&4B            ; the video ULA: teletext
        STA &FE20
        LDA #&0F            ; the system's 6522: the latch, and the keyboard
        STA &FE42
        LDA #&7F
        STA &FE43
        LDA #&03
        STA &FE40
        LDX #0
        LDA #32
clear:  STA &7C00,X
        STA &7D00,X
        STA &7E00,X
        STA &7F00,X
        INX
        BNE clear
        LDX #19
name:   LDA title,X
        STA &7C28,X
        DEX
        BPL name
        LDA #20
        STA &70
draw:   LDX &70
        LDA #42             ; a star
        STA &7DE0,X
up:     LDA #&61            ; until no key of the two is down
        JSR key
        BMI up
        LDA #&42
        JSR key
        BMI up
wait:   LDA #&70            ; ESCAPE
        JSR key
        BMI end
        LDA #&61            ; Z
        JSR key
        BMI left
        LDA #&42            ; X
        JSR key
        BPL wait
        JSR away
        CPX #39
        BEQ draw
        INC &70
        BNE draw
left:   JSR away
        CPX #0
        BEQ draw
        DEC &70
        JMP draw
away:   LDX &70
        LDA #32
        STA &7DE0,X
        RTS
key:    STA &FE4F           ; N is set if the key A is down
        LDA &FE4F
        RTS
end:    LDA &70
        RTS
title:  byte 130,83,84,65,82,32,32,90,32,88,32,69,83,67,65,80,69,32,32,32
crtc:   byte &3F,&28,&33,&24,&1E,&02,&19,&1B,&93,&12,&72,&13,&28,&00
