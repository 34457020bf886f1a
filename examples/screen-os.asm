; Draws a screen in the mode of a digit key from 0 to 7: bars in each colour and letters, or in mode 7 a page of teletext. It begins in mode 7.
; &70 has the mode, &74 the place on the screen that is reached, and &76 the place that is read. The values that the chips take in each mode are
; those of the Advanced User Guide of the BBC Microcomputer.
        org &C000
start:  LDX #&FF
        TXS
        LDA #&0F        ; port B of the system's 6522: the addressable latch
        STA &FE42
        LDA #&7F        ; port A: a key's number out, bit 7 in
        STA &FE43
        LDA #&03        ; bit 3 of the latch clear: the key that port A tells, not any
        STA &FE40
        LDX #7
        JSR mode
wait:   LDX #7
scan:   LDA keys,X
        STA &FE4F
        LDA &FE4F
        BMI found
        DEX
        BPL scan
        JMP wait
found:  JSR mode
up:     LDA &FE4F       ; until the key is up again
        BMI up
        JMP wait

; Mode X: the chips, and then the picture.
mode:   STX &70
        LDA control,X   ; the video ULA
        STA &FE20
        LDA four,X      ; the screen's size, in bits 4 and 5 of the latch
        STA &FE40
        LDA five,X
        STA &FE40
        LDY shape,X     ; registers 0 to 11 of the 6845
        LDX #0
next:   STX &FE00
        LDA timing,Y
        STA &FE01
        INY
        INX
        CPX #12
        BNE next
        STX &FE00       ; registers 12 and 13: where the screen begins
        LDY &70
        LDA first,Y
        STA &FE01
        INX
        STX &FE00
        LDA #0
        STA &FE01
        LDA colours,Y   ; the 16 entries of the palette
        TAY
        LDX #15
entry:  LDA palette,Y
        STA &FE21
        INY
        DEX
        BPL entry
        LDX &70
        LDA #0          ; the screen is cleared, up to 7FFF
        TAY
        STA &74
        LDA top,X
        STA &75
        LDA blank,X
clear:  STA (&74),Y
        INY
        BNE clear
        INC &75
        BPL clear
        CPX #7
        BEQ page
        JSR draw
        LDA &75         ; the cursor behind what was drawn: an eighth of its address
        LSR A
        ROR &74
        LSR A
        ROR &74
        LSR A
        ROR &74
        JMP cursor
page:   JSR text
        LDA &75
        SEC
        SBC #&54
cursor: LDX #14
        STX &FE00
        STA &FE01
        INX
        STX &FE00
        LDA &74
        STA &FE01
        RTS

; Three rows of letters, bars, and all letters.
draw:   LDA #1
        JSR row
        LDA #<title
        LDY #>title
        JSR print
        LDA &70
        ORA #48
        JSR char
        LDA #2
        JSR row
        LDX &70
        LDA size,X
        LDY above,X
        JSR print
        LDA #3
        JSR row
        LDX &70
        LDA many,X
        LDY more,X
        JSR print
        LDA #5
        JSR row
        LDX &70
        LDA high,X
        STA &71
across: LDX &70         ; a row: bars of five bytes, eight times each
        LDA wide,X
        STA &72
        LDA bar,X
        TAX
each:   LDA bars,X
        LDY #39
fill:   STA (&74),Y
        DEY
        BPL fill
        LDA #40
        JSR on
        INX
        DEC &72
        BNE each
        DEC &71
        BNE across
        LDX &70
        LDA high,X
        CLC
        ADC #6
        JSR row
        LDA #32
all:    STA &73
        JSR char
        LDX &73
        INX
        TXA
        CMP #96
        BNE all
        RTS

; Goes on by A bytes.
on:     CLC
        ADC &74
        STA &74
        BCC same
        INC &75
same:   RTS

; The place of row A.
row:    TAX
        LDY &70
        LDA #0
        STA &74
        LDA top,Y
        STA &75
down:   LDA &74
        CLC
        ADC low,Y
        STA &74
        LDA &75
        ADC page_of,Y
        STA &75
        DEX
        BNE down
        RTS

; The letters from A and Y on, up to a 0.
print:  STA &7B
        STY &7C
        LDY #0
letter: STY &7D
        LDA (&7B),Y
        BEQ done
        JSR char
        LDY &7D
        INY
        BNE letter
done:   RTS

; The letter A: its dots, one, two or four bytes wide.
char:   STA &76
        LDA #0
        STA &77
        ASL &76
        ROL &77
        ASL &76
        ROL &77
        ASL &76
        ROL &77
        LDA &76
        CLC
        ADC #<letters
        STA &76
        LDA &77
        ADC #>letters
        STA &77
        DEC &77         ; the first letter is the space, 32
        LDY #7
copy:   LDA (&76),Y
        STA &0080,Y
        DEY
        BPL copy
        LDX &70
        LDA dots,X      ; as many dots has a byte
        STA &78
        LDA #8
        STA &79
part:   LDX #0
line:   LDY &78
        LDA #0
shift:  ASL &80,X
        ROL A
        DEY
        BNE shift
        LDY &78
        CPY #4
        BEQ by_four
        BCS put
        TAY
        LDA twos,Y
        JMP put
by_four: TAY
        LDA fours,Y
put:    STX &7A
        LDY &7A
        STA (&74),Y
        INX
        CPX #8
        BNE line
        LDA #8
        JSR on
        LDA &79
        SEC
        SBC &78
        STA &79
        BNE part
        RTS

; The page of teletext, row by row. A 0 ends a row, and &FF the page.
text:   LDA #0
        STA &74
        LDA #&7C
        STA &75
        LDA #<teletext
        STA &76
        LDA #>teletext
        STA &77
along:  LDY #0
code:   LDA (&76),Y
        BEQ ended
        CMP #&FF
        BNE put_on
        RTS
put_on: STA (&74),Y
        INY
        BNE code
ended:  TYA
        SEC             ; the 0 too
        ADC &76
        STA &76
        BCC below
        INC &77
below:  LDA #40
        JSR on
        JMP along

; For each mode: the digit's key, the control byte of the video ULA, what sets or clears bits 4 and 5 of the latch, where its registers of the
; 6845 stand, register 12, where its palette stands, the page where the screen begins, and the byte that clears it.
keys:   byte &27,&30,&31,&11,&12,&13,&34,&24
control: byte &9C,&D8,&F4,&9C,&88,&C4,&88,&4B
four:   byte &04,&04,&04,&04,&0C,&0C,&0C,&04
five:   byte &0D,&0D,&0D,&05,&0D,&0D,&05,&05
shape:  byte 0,0,0,12,24,24,36,48
first:  byte &06,&06,&06,&08,&0B,&0B,&0C,&28
colours: byte 0,16,32,0,0,16,0,0
top:    byte &30,&30,&30,&40,&58,&58,&60,&7C
blank:  byte 0,0,0,0,0,0,0,32
; The bytes of a row of letters, low and high, how many dots a byte has, rows of bars, bars, and where these stand.
low:    byte &80,&80,&80,&80,&40,&40,&40
page_of: byte 2,2,2,2,1,1,1
dots:   byte 8,4,2,8,8,4,8
high:   byte 21,21,21,16,21,21,16
wide:   byte 16,16,16,16,8,8,8
bar:    byte 0,16,32,0,48,56,48
; The texts.
size:   byte <size0,<size1,<size2,<size3,<size1,<size2,<size6
above:  byte >size0,>size1,>size2,>size3,>size1,>size2,>size6
many:   byte <two,<few,<most,<two,<two,<few,<two
more:   byte >two,>few,>most,>two,>two,>few,>two
title:  byte 77,79,68,69,32,0 ; MODE and a space
size0:  byte 54,52,48,32,66,89,32,50,53,54,0 ; 640 BY 256
size1:  byte 51,50,48,32,66,89,32,50,53,54,0 ; 320 BY 256
size2:  byte 49,54,48,32,66,89,32,50,53,54,0 ; 160 BY 256
size3:  byte 56,48,32,66,89,32,50,53,32,76,69,84,84,69,82,83,0 ; 80 BY 25 LETTERS
size6:  byte 52,48,32,66,89,32,50,53,32,76,69,84,84,69,82,83,0 ; 40 BY 25 LETTERS
two:    byte 50,32,67,79,76,79,85,82,83,0 ; 2 COLOURS
few:    byte 52,32,67,79,76,79,85,82,83,0 ; 4 COLOURS
most:   byte 49,54,32,67,79,76,79,85,82,83,0 ; 16 COLOURS
; Registers 0 to 11 of the 6845, for modes 0 to 2, 3, 4 and 5, 6, and 7.
timing: byte &7F,&50,&62,&28,&26,&00,&20,&22,&01,&07,&67,&08
        byte &7F,&50,&62,&28,&1E,&02,&19,&1B,&01,&09,&67,&09
        byte &3F,&28,&31,&24,&26,&00,&20,&22,&01,&07,&67,&08
        byte &3F,&28,&31,&24,&1E,&02,&19,&1B,&01,&09,&67,&09
        byte &3F,&28,&33,&24,&1E,&02,&19,&1B,&93,&12,&72,&13
; An entry and its colour, XOR 7: for two colours, for four, and for sixteen, the last eight of which flash.
palette: byte &07,&17,&27,&37,&47,&57,&67,&77,&80,&90,&A0,&B0,&C0,&D0,&E0,&F0
        byte &07,&17,&47,&57,&26,&36,&66,&76,&84,&94,&C4,&D4,&A0,&B0,&E0,&F0
        byte &07,&16,&25,&34,&43,&52,&61,&70,&8F,&9E,&AD,&BC,&CB,&DA,&E9,&F8
; The bars: stripes of two colours, four colours, sixteen; and half as many.
bars:   byte &FF,0,&FE,0,&EE,0,&F0,0,&CC,0,&AA,0,&88,0,&80,0
        byte 0,0,0,0,&0F,&0F,&0F,&0F,&F0,&F0,&F0,&F0,&FF,&FF,&FF,&FF
        byte 0,&03,&0C,&0F,&30,&33,&3C,&3F,&C0,&C3,&CC,&CF,&F0,&F3,&FC,&FF
        byte &FF,&FE,&EE,&F0,&CC,&AA,&88,&80
        byte 0,0,&0F,&0F,&F0,&F0,&FF,&FF
; Four dots and two dots of a letter in the last colour of four, and in white of sixteen.
fours:  byte &00,&11,&22,&33,&44,&55,&66,&77,&88,&99,&AA,&BB,&CC,&DD,&EE,&FF
twos:   byte &00,&15,&2A,&3F
; The page of teletext.
teletext:
        ; double height on a new background
        byte 4,&1D,7,&0D,&20,&20,&42,&65,&65,&62,&74,&75,&62,&65,&3A,&20,&61,&20,&70,&61,&67,&65,&20,&6F,&66,&20,&74,&65,&6C,&65,&74,&65,&78,&74,0
        ; the same again, for the lower halves
        byte 4,&1D,7,&0D,&20,&20,&42,&65,&65,&62,&74,&75,&62,&65,&3A,&20,&61,&20,&70,&61,&67,&65,&20,&6F,&66,&20,&74,&65,&6C,&65,&74,&65,&78,&74,0
        byte 0
        ; letters in each colour
        byte 1,&52,&65,&64,2,&47,&72,&65,&65,&6E,3,&59,&65,&6C,&6C,&6F,&77,4,&42,&6C,&75,&65,5,&50,&69,&6E,&6B,6,&43,&79,&61,&6E,7,&57,&68,&69,&74,&65,0
        ; graphics in each colour
        byte &11,&35,&6A,&3C,&7F,&12,&35,&6A,&3C,&7F,&13,&35,&6A,&3C,&7F,&14,&35,&6A,&3C,&7F,&15,&35,&6A,&3C,&7F,&16,&35,&6A,&3C,&7F,&17,&35,&6A,&3C,&7F,0
        ; the same, separated
        byte &1A,&11,&35,&6A,&3C,&7F,&12,&35,&6A,&3C,&7F,&13,&35,&6A,&3C,&7F,&14,&35,&6A,&3C,&7F,&15,&35,&6A,&3C,&7F,&16,&35,&6A,&3C,&7F,&17,&35,&6A,&3C,&7F,0
        ; contiguous and separated
        byte &13,&7F,&7F,&7F,&1A,&7F,&7F,&7F,&19,&7F,&7F,&7F,7,&6F,&6E,&65,&2C,&20,&70,&61,&72,&74,&65,&64,&2C,&20,&6F,&6E,&65,0
        byte 0
        ; flash and steady
        byte 3,&73,&74,&65,&61,&64,&79,8,&66,&6C,&61,&73,&68,&69,&6E,&67,9,&73,&74,&65,&61,&64,&79,0
        ; conceal, which a colour ends
        byte 6,&73,&68,&6F,&77,&6E,&18,&63,&6F,&6E,&63,&65,&61,&6C,&65,&64,6,&73,&68,&6F,&77,&6E,0
        ; new background, black background
        byte 1,&1D,7,&6E,&65,&77,&20,&62,&61,&63,&6B,&67,&72,&6F,&75,&6E,&64,&1C,&62,&6C,&61,&63,&6B,&20,&62,&61,&63,&6B,&67,&72,&6F,&75,&6E,&64,0
        ; hold and release: what stands where the colours change
        byte &11,&7F,&1E,&12,&13,&14,&15,&16,&17,&11,&1F,&12,&13,&14,&7F,7,&68,&65,&6C,&64,&2C,&20,&72,&65,&6C,&65,&61,&73,&65,&64,0
        byte 0
        ; double and normal height in one row
        byte 2,&6E,&6F,&72,&6D,&61,&6C,&0D,&64,&6F,&75,&62,&6C,&65,&0C,&6E,&6F,&72,&6D,&61,&6C,0
        ; its lower halves
        byte 2,&6E,&6F,&72,&6D,&61,&6C,&0D,&64,&6F,&75,&62,&6C,&65,&0C,&6E,&6F,&72,&6D,&61,&6C,0
        byte 0
        ; all shapes of the font
        byte 7,&20,&21,&22,&23,&24,&25,&26,&27,&28,&29,&2A,&2B,&2C,&2D,&2E,&2F,&30,&31,&32,&33,&34,&35,&36,&37,&38,&39,&3A,&3B,&3C,&3D,&3E,&3F,0
        byte 7,&40,&41,&42,&43,&44,&45,&46,&47,&48,&49,&4A,&4B,&4C,&4D,&4E,&4F,&50,&51,&52,&53,&54,&55,&56,&57,&58,&59,&5A,&5B,&5C,&5D,&5E,&5F,0
        byte 7,&60,&61,&62,&63,&64,&65,&66,&67,&68,&69,&6A,&6B,&6C,&6D,&6E,&6F,&70,&71,&72,&73,&74,&75,&76,&77,&78,&79,&7A,&7B,&7C,&7D,&7E,&7F,0
        byte 0
        ; a picture of sixels
        byte &16,&20,&20,&60,&70,&7C,&7E,&7F,&7F,&7D,&7C,&30,&20,&20,&12,&60,&70,&7C,&7F,&7C,&30,0
        byte &16,&70,&7E,&7F,&7F,&7F,&7F,&7F,&7F,&7F,&7F,&7F,&7D,&34,&12,&7E,&7F,&7F,&7F,&7F,&7D,&34,0
        byte &16,&23,&2F,&3F,&6F,&7F,&7F,&7F,&7F,&7F,&3F,&2F,&23,&20,&12,&22,&2B,&2F,&3F,&2F,&27,&21,0
        byte 0
        byte &FF
; The letters from the space on, eight bytes each, one a row from the top, bit 7 the leftmost dot.
letters:
        byte &00,&00,&00,&00,&00,&00,&00,&00 ; space
        byte &18,&18,&18,&18,&18,&00,&18,&00 ; !
        byte &3C,&3C,&3C,&00,&00,&00,&00,&00 ; "
        byte &36,&36,&7F,&36,&7F,&36,&36,&00 ; #
        byte &18,&3E,&68,&3C,&16,&7C,&18,&00 ; $
        byte &60,&66,&0C,&18,&30,&66,&06,&00 ; %
        byte &38,&6C,&38,&70,&6D,&66,&3D,&00 ; &
        byte &18,&18,&30,&00,&00,&00,&00,&00 ; '
        byte &0C,&18,&30,&30,&30,&18,&0C,&00 ; (
        byte &30,&18,&0C,&0C,&0C,&18,&30,&00 ; )
        byte &00,&18,&7E,&3C,&7E,&18,&00,&00 ; *
        byte &00,&18,&18,&7E,&18,&18,&00,&00 ; +
        byte &00,&00,&00,&00,&00,&18,&18,&30 ; ,
        byte &00,&00,&00,&3C,&00,&00,&00,&00 ; -
        byte &00,&00,&00,&00,&00,&00,&18,&00 ; .
        byte &00,&06,&0C,&18,&30,&60,&00,&00 ; /
        byte &18,&3C,&66,&66,&66,&3C,&18,&00 ; 0
        byte &18,&38,&18,&18,&18,&18,&3C,&00 ; 1
        byte &3C,&66,&06,&1C,&30,&60,&7E,&00 ; 2
        byte &7E,&06,&0C,&1C,&06,&66,&3C,&00 ; 3
        byte &0C,&1C,&3C,&6C,&7E,&0C,&0C,&00 ; 4
        byte &7E,&60,&7C,&06,&06,&66,&3C,&00 ; 5
        byte &1C,&30,&60,&7C,&66,&66,&3C,&00 ; 6
        byte &7E,&06,&0C,&18,&30,&30,&30,&00 ; 7
        byte &3C,&66,&66,&3C,&66,&66,&3C,&00 ; 8
        byte &3C,&66,&66,&3E,&06,&0C,&38,&00 ; 9
        byte &00,&18,&00,&00,&00,&18,&00,&00 ; :
        byte &00,&18,&00,&00,&00,&18,&18,&30 ; ;
        byte &0C,&18,&30,&60,&30,&18,&0C,&00 ; <
        byte &00,&00,&7E,&00,&7E,&00,&00,&00 ; =
        byte &30,&18,&0C,&06,&0C,&18,&30,&00 ; >
        byte &3C,&66,&0C,&18,&18,&00,&18,&00 ; ?
        byte &3C,&66,&6E,&6A,&6E,&60,&3C,&00 ; @
        byte &18,&3C,&66,&66,&7E,&66,&66,&00 ; A
        byte &7C,&66,&66,&7C,&66,&66,&7C,&00 ; B
        byte &3C,&66,&60,&60,&60,&66,&3C,&00 ; C
        byte &7C,&66,&66,&66,&66,&66,&7C,&00 ; D
        byte &7E,&60,&60,&7C,&60,&60,&7E,&00 ; E
        byte &7E,&60,&60,&7C,&60,&60,&60,&00 ; F
        byte &3C,&66,&60,&60,&6E,&66,&3E,&00 ; G
        byte &66,&66,&66,&7E,&66,&66,&66,&00 ; H
        byte &3C,&18,&18,&18,&18,&18,&3C,&00 ; I
        byte &06,&06,&06,&06,&06,&66,&3C,&00 ; J
        byte &66,&6C,&78,&70,&78,&6C,&66,&00 ; K
        byte &60,&60,&60,&60,&60,&60,&7E,&00 ; L
        byte &63,&77,&7F,&6B,&63,&63,&63,&00 ; M
        byte &63,&73,&7B,&6F,&67,&63,&63,&00 ; N
        byte &3C,&66,&66,&66,&66,&66,&3C,&00 ; O
        byte &7C,&66,&66,&7C,&60,&60,&60,&00 ; P
        byte &3C,&66,&66,&66,&6A,&6C,&36,&00 ; Q
        byte &7C,&66,&66,&7C,&78,&6C,&66,&00 ; R
        byte &3C,&66,&60,&3C,&06,&66,&3C,&00 ; S
        byte &7E,&18,&18,&18,&18,&18,&18,&00 ; T
        byte &66,&66,&66,&66,&66,&66,&3C,&00 ; U
        byte &66,&66,&66,&3C,&3C,&18,&18,&00 ; V
        byte &63,&63,&63,&6B,&7F,&77,&63,&00 ; W
        byte &66,&66,&3C,&18,&3C,&66,&66,&00 ; X
        byte &66,&66,&3C,&18,&18,&18,&18,&00 ; Y
        byte &7E,&06,&0C,&18,&30,&60,&7E,&00 ; Z
        byte &3C,&30,&30,&30,&30,&30,&3C,&00 ; [
        byte &00,&60,&30,&18,&0C,&06,&00,&00 ; \
        byte &3C,&0C,&0C,&0C,&0C,&0C,&3C,&00 ; ]
        byte &18,&3C,&66,&00,&00,&00,&00,&00 ; ^
        byte &00,&00,&00,&00,&00,&00,&00,&7E ; _
        org &FFFA
        word start, start, start
