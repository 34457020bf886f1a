; The host's ROM for tools/execute: it takes a deck of bytes from the paged ROMs, one behind the other, loads from it
; a program for the second processor, for the host, or one for each, and has the calls of the operating system for
; them. Output goes to the printer's latch, that of errors to the RAM card. docs/PROGRAMS.md has the protocol.
;   &E0,&E1 the deck's next byte, &E2 its slot     &E3 to &E5 how many bytes of input are left
;   &E6,&E7 where a block goes   &E8 how many      &E9 the command, or what is wanted of a line
;   &EB,&EC where the host's program begins        &ED it has one        &EE the second processor has said its start
;   &EF the input is not there yet
;   &F0 how the program ended: 1 with the status &F1, 2 by a BRK of the host, 3 by one of the second processor,
;       4 by the unknown call &F1, 5 with too much output, 6 since it wants input that is not there yet
;   &F2 to &F4 how many bytes of output, &F5 to &F7 how many of errors
;   &F8 how long a pause is      &FC A at an interrupt           &FD,&FE behind the host's BRK
        org &C000
        JMP reset
        JMP end             ; C003: ends the host's program, with its status in A
        JMP serve           ; C006: does what the second processor wants, if it wants something: C is set then
reset:  SEI
        CLD
        LDX #&FF
        TXS
        LDX #&E0
        LDA #0
clear:  STA &00,X
        INX
        BNE clear
        STA &FE30
        LDA #&80
        STA &E1

; The parts of the deck: what it is and an address; of a block its length in pages, and from the next page on its bytes.
;   1 for the second processor, 2 for the host, 3 where the second processor begins, 4 where the host's program does
part:   JSR next
        STA &E9
        JSR next
        STA &E6
        JSR next
        STA &E7
        LDA &E9
        BEQ loaded
        CMP #3
        BEQ begin
        CMP #4
        BEQ own
        JSR next
        STA &E8
        JSR align
        LDA &E9
        CMP #2
        BEQ page
tubes:  LDA #7              ; a block of 256 bytes
        JSR command
        LDY #0
give3:  LDA (&E0),Y
room3:  BIT &FEE4
        BVC room3
        STA &FEE5
        INY
        BNE give3
        JSR turn
        INC &E7
        DEC &E8
        BNE tubes
        BEQ part
page:   LDY #0
put:    LDA (&E0),Y
        STA (&E6),Y
        INY
        BNE put
        JSR turn
        INC &E7
        DEC &E8
        BNE page
        BEQ part
begin:  LDA #4              ; where it begins, and that it does
        JSR command
        LDA #&80
        JSR give2
        JMP part
own:    LDA &E6
        STA &EB
        LDA &E7
        STA &EC
        INC &ED
        JMP part
loaded: LDA &E6             ; behind the last part is the input: its length in three bytes, whether it is still to come,
        STA &E3             ; and its bytes
        LDA &E7
        STA &E4
        JSR next
        STA &E5
        JSR next
        STA &EF
        LDA &ED
        BEQ tube
        JSR enter
        JMP end
enter:  JMP (&00EB)

; All that the second processor wants, with a pause where it wants nothing, twice as long each time.
tube:   LDA #1
        STA &F8
again:  JSR serve
        BCS tube
        LDX &F8
pause:  DEX
        BNE pause
        LDA &F8
        BMI again
        ASL &F8
        BNE again

serve:  BIT &FEE0           ; register 1: a byte of the output
        BPL call
        LDA &FEE1
        JSR print
        SEC
        RTS
call:   BIT &FEE2           ; register 2: a call
        BMI some
        CLC
        RTS
some:   LDA &FEE3
        CMP #&00
        BEQ rdch
        CMP #&04
        BEQ byte
        CMP #&06
        BEQ long
        CMP #&0A
        BEQ line
        CMP #&0E
        BEQ bget
        CMP #&10
        BEQ bput
        CMP #&18
        BEQ ended
        CMP #&19
        BEQ broken
        STA &F1
        LDA #4
        JMP halt
ended:  JSR take2
end:    STA &F1             ; status A
        LDA #1
        BNE halt
broken: LDA #3
halt:   STA &F0
        LDA &EE             ; the second processor is held where there is one, and this one halts
        BEQ here
        LDA #&A0
        STA &FEE0
here:   byte &02
bget:   JSR take2           ; which file
rdch:   JSR get
        PHA
        ROR A               ; C is bit 7
        JSR give2
        PLA
both:   JSR give2
        SEC
        RTS
bput:   JSR take2
        TAY
        JSR take2
        JSR file
        LDA #&7F
        BNE both
byte:   JSR take2           ; OSBYTE: X comes back as it is
        TAX
        JSR take2
        TXA
        JMP both
long:   JSR take2
        PHA
        JSR take2
        TAY
        JSR take2
        LDA #0
        JSR give2
        TYA
        JSR give2
        PLA
        JMP both
line:   JSR take2           ; the highest and lowest letter are not looked at
        JSR take2
        JSR take2
        STA &E9             ; how many there may be
        JSR take2
        JSR take2
        JSR get
        BCC first
        LDA #&FF            ; there is none
        BNE both
first:  TAX
        LDA #&7F
        JSR give2
letter: CPX #10
        BEQ last
        LDA &E9
        BEQ passed
        DEC &E9
        TXA
        JSR give2
passed: JSR get
        TAX
        BCC letter
last:   LDA #13
        JMP both

; The next byte of the deck; Y goes.
next:   LDY #0
        LDA (&E0),Y
        INC &E0
        BNE same
        PHA
        JSR turn
        PLA
same:   RTS
; The next page of the deck, and the next slot behind its last one.
align:  LDA &E0
        BEQ same
        LDA #0
        STA &E0
turn:   INC &E1
        LDA &E1
        CMP #&C0
        BNE same
        LDA #&80
        STA &E1
        INC &E2
        LDA &E2
        STA &FE30
        RTS

; The next byte of the input in A; C is set at its end. X stays.
get:    LDA &E3
        ORA &E4
        ORA &E5
        BEQ none
        LDA &E3
        BNE small
        LDA &E4
        BNE middle
        DEC &E5
middle: DEC &E4
small:  DEC &E3
        JSR next
        CLC
        RTS
none:   LDA &EF             ; the input is still to be read: the run begins anew with it
        BNE wanted
        LDA #&FF
        SEC
        RTS

wanted: LDA #6
        JMP halt

; A to the output, or to file Y; A, X and Y stay.
file:   CPY #2
        BEQ error
print:  STA &FC10
        INC &F2
        BNE fits
        INC &F3
        BNE fits
        INC &F4
fits:   PHA
        LDA &F4
        BEQ well
        LDA &F2
        ORA &F3
        BNE much            ; the latch keeps 65,536 bytes
well:   PLA
        RTS
error:  PHA
        LDA &F7
        BNE much
        LDA &F6
        STA &FCFF
        TXA
        TAY
        LDX &F5
        PLA
        STA &FD00,X
        PHA
        TYA
        TAX
        LDY #2
        INC &F5
        BNE well
        INC &F6
        BNE well
        INC &F7
        BNE well
much:   LDA #5
        JMP halt

; A command to register 4: what it is, who wants it, and the address.
command: PHA
        LDA &EE
        BNE greeted
start:  BIT &FEE0           ; what the second processor says at its start, up to a 0
        BPL start
        LDA &FEE1
        BNE start
        LDA #&84            ; register 4 interrupts it from here on
        STA &FEE0
        INC &EE
greeted: PLA
        JSR give4
        LDA #&C0
        JSR give4
        LDA #0
        JSR give4
        LDA #0
        JSR give4
        LDA &E7
        JSR give4
        LDA &E6
        JSR give4
give4:  BIT &FEE6
        BVC give4
        STA &FEE7
        RTS
give2:  BIT &FEE2
        BVC give2
        STA &FEE3
        RTS
take2:  BIT &FEE2
        BPL take2
        LDA &FEE3
        RTS

; Of the host's own program: OSBGET, OSRDCH and OSBYTE.
hget:   STY &E9
        JSR get
        LDY &E9
hbyte:  RTS
irq:    STA &FC
        PLA
        PHA
        AND #&10
        BNE break
        LDA &FC
nmi:    RTI
break:  TSX
        SEC
        LDA &0102,X
        SBC #1
        STA &FD
        LDA &0103,X
        SBC #0
        STA &FE
        LDA #2
        JMP halt

        org &FFCE
        byte 0,0,0          ; OSFIND, OSGBPB: a BRK is where there is no call
        byte 0,0,0
        JMP file            ; FFD4
        JMP hget            ; FFD7
        byte 0,0,0          ; OSARGS, OSFILE
        byte 0,0,0
        JMP hget            ; FFE0
        CMP #13             ; FFE3 OSASCI
        BNE osw
        LDA #10             ; FFE7 OSNEWL
        JSR osw
        LDA #13
osw:    JMP print           ; FFEE
        byte 0,0,0          ; OSWORD
        JMP hbyte           ; FFF4
        byte 0,0,0          ; OSCLI
        word nmi, reset, irq
