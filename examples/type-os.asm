; An operating system that shows what is typed, on a screen of teletext. The letter of each new key goes
; through the Tube to the second processor (type-tube.asm), and what comes back from there is shown.
;   &70 the place on the screen, low and high    &72 its column    &73 the key that is down, or &FF
        org &C000
start:  LDX #&FF
        TXS
        STX &73
        LDA #&0F        ; port B of the system's 6522: the addressable latch
        STA &FE42
        LDA #&7F        ; port A: a key's number out, bit 7 in: that key is down
        STA &FE43
        LDA #&03        ; bit 3 of the latch clear: the key that port A tells, not any
        STA &FE40
        JSR screen

loop:   BIT &FEE0       ; bit 7: the second processor has sent a byte
        BPL typed
        LDA &FEE1
        JSR show
        JMP loop
typed:  JSR key
        BEQ loop        ; no new key, or one without a letter
send:   BIT &FEE0       ; bit 6: there is room for a byte
        BVC send
        STA &FEE1
        JMP loop

; A: the letter of a key that is down and was not before, else 0.
key:    LDX #&79        ; the last key; those before 10 are SHIFT, CTRL and the links
scan:   STX &FE4F
        LDA &FE4F
        BMI down
        DEX
        CPX #&0F
        BNE scan
        LDX #&FF
down:   CPX &73
        BEQ none        ; as before
        STX &73
        CPX #&FF
        BEQ none        ; the key is up
        LDA #0          ; key 00 is SHIFT
        STA &FE4F
        LDA &FE4F
        BMI upper
        LDA plain,X
        RTS
upper:  LDA shifted,X
        RTS
none:   LDA #0
        RTS

; Shows the letter A at the place that is reached: 13 begins a new line, 127 takes a letter back.
show:   LDY #0
        CMP #13
        BEQ return
        CMP #127
        BEQ delete
        LDX #2          ; three letters have other codes in teletext
other:  CMP ascii,X
        BEQ found
        DEX
        BPL other
        BMI put
found:  LDA code,X
put:    STA (&70),Y
        INC &72
        LDA #1
        JSR on
        LDA &72
        CMP #40
        BNE cursor
new:    STY &72
        LDA &71         ; a full page is cleared: 7FE8 is below the last line
        CMP #&7F
        BNE cursor
        LDA &70
        CMP #&E8
        BNE cursor
        JMP clear
return: LDA #40         ; on by what is left of the line
        SEC
        SBC &72
        JSR on
        JMP new
delete: LDA &72
        BEQ cursor
        DEC &72
        LDA &70
        BNE low
        DEC &71
low:    DEC &70
        LDA #32
        STA (&70),Y

; Puts the cursor, registers 14 and 15 of the 6845, at the place that is reached.
cursor: LDX #14
        STX &FE00
        LDA &71
        SEC
        SBC #&54        ; the chip has 2800 for 7C00
        STA &FE01
        INX
        STX &FE00
        LDA &70
        STA &FE01
        RTS

; Goes on by A places.
on:     CLC
        ADC &70
        STA &70
        BCC same
        INC &71
same:   RTS

; Mode 7: the video ULA, the screen's size in the latch, and registers 0 to 13 of the 6845.
screen: LDA #&4B
        STA &FE20
        LDA #&04
        STA &FE40
        LDA #&05
        STA &FE40
        LDX #13
set:    STX &FE00
        LDA timing,X
        STA &FE01
        DEX
        BPL set

; Clears the page, 7C00 to 7FFF, and goes to its beginning.
clear:  LDA #32
        LDX #0
blank:  STA &7C00,X
        STA &7D00,X
        STA &7E00,X
        STA &7F00,X
        INX
        BNE blank
        STX &70
        STX &72
        LDA #&7C
        STA &71
        JMP cursor

timing: byte &3F,&28,&33,&24,&1E,&02,&19,&1B,&93,&12,&72,&13,&28,&00
ascii:  byte &23,&5F,&60    ; #, _ and the pound sign
code:   byte &5F,&60,&23
; The letters of the keys by their numbers, 16 to a row of the matrix, of which 10 are there.
plain:  byte 0,0,0,0,0,0,0,0,0,0,0,0,0,0,0,0
        byte 113,51,52,53,0,56,0,45,94,0,0,0,0,0,0,0        ; q 3 4 5 f4 8 f7 - ^ left
        byte 0,119,101,116,55,105,57,48,95,0,0,0,0,0,0,0    ; f0 w e t 7 i 9 0 _ down
        byte 49,50,100,114,54,117,111,112,91,0,0,0,0,0,0,0  ; 1 2 d r 6 u o p [ up
        byte 0,97,120,102,121,106,107,64,58,13,0,0,0,0,0,0  ; CAPS LOCK a x f y j k @ : RETURN
        byte 0,115,99,103,104,110,108,59,93,127,0,0,0,0,0,0 ; SHIFT LOCK s c g h n l ; ] DELETE
        byte 0,122,32,118,98,109,44,46,47,0,0,0,0,0,0,0     ; TAB z SPACE v b m , . / COPY
        byte 0,0,0,0,0,0,0,0,92,0                           ; ESCAPE f1 f2 f3 f5 f6 f8 f9 \ right
; The same with SHIFT.
shifted: byte 0,0,0,0,0,0,0,0,0,0,0,0,0,0,0,0
        byte 81,35,36,37,0,40,0,61,126,0,0,0,0,0,0,0        ; Q # $ % f4 ( f7 = ~ left
        byte 0,87,69,84,39,73,41,48,96,0,0,0,0,0,0,0        ; f0 W E T ' I ) 0 pound down
        byte 33,34,68,82,38,85,79,80,123,0,0,0,0,0,0,0      ; ! " D R & U O P { up
        byte 0,65,88,70,89,74,75,64,42,13,0,0,0,0,0,0       ; CAPS LOCK A X F Y J K @ * RETURN
        byte 0,83,67,71,72,78,76,43,125,127,0,0,0,0,0,0     ; SHIFT LOCK S C G H N L + } DELETE
        byte 0,90,32,86,66,77,60,62,63,0,0,0,0,0,0,0        ; TAB Z SPACE V B M < > ? COPY
        byte 0,0,0,0,0,0,0,0,124,0                          ; ESCAPE f1 f2 f3 f5 f6 f8 f9 | right

        org &FFFA
        word start, start, start
