; The boot ROM of the second processor for tools/execute: it takes a program through the Tube, runs it, and has the
; calls of the operating system for it. docs/PROGRAMS.md has the protocol.
;   &EE,&EF where the program begins    &F6,&F7 where a block goes    &F8,&F9 a control block
;   &FC A at an interrupt               &FD,&FE behind the BRK that ended the program
        org &F800
        JMP reset
        JMP end             ; F803: ends the program, with its status in A
reset:  SEI
        CLD
        LDX #&FF
        TXS
        INX
copy:   LDA &F800,X         ; the ROM goes with the first access to the Tube: what runs is a copy, without the page FE,
        STA &F800,X         ; since a read of FEF8 to FEFF is such an access
        LDA &F900,X
        STA &F900,X
        LDA &FA00,X
        STA &FA00,X
        LDA &FB00,X
        STA &FB00,X
        LDA &FC00,X
        STA &FC00,X
        LDA &FD00,X
        STA &FD00,X
        LDA &FF00,X
        STA &FF00,X
        INX
        BNE copy
        LDA #0              ; the text of a start ends with 0, and here that is all of it
        JSR wrch
        CLI                 ; blocks come by interrupts
wait:   JSR take2
        CMP #&80            ; the program is there
        BNE wait
        JSR enter
end:    PHA
        LDA #&18            ; it has ended
        JSR give2
        PLA
        JSR give2
stop:   BRA stop
enter:  JMP (&00EE)

; An interrupt: register 4 has a command, or it is a BRK.
irq:    STA &FC
        PLA
        PHA
        AND #&10
        BNE break
        BIT &FEFE
        BPL out
        PHX
        PHY
        LDX &FEFF           ; what is to be done
        JSR take4           ; who wants it
        CPX #5
        BEQ done            ; nothing more is wanted
        JSR take4           ; the address, its highest byte first; it has 16 bits
        JSR take4
        JSR take4
        STA &F7
        JSR take4
        STA &F6
        JSR take4           ; now it begins
        CPX #4
        BEQ begin
        LDY #0              ; 7: a block of 256 bytes
        CPX #7
        BNE done
block:  BIT &FEFC
        BPL block
        LDA &FEFD
        STA (&F6),Y
        INY
        BNE block
        BRA done
begin:  LDA &F6             ; 4: where the program begins
        STA &EE
        LDA &F7
        STA &EF
done:   PLY
        PLX
out:    LDA &FC
nmi:    RTI
break:  PHX
        TSX
        SEC
        LDA &0103,X
        SBC #1
        STA &FD
        LDA &0104,X
        SBC #0
        STA &FE
        PLX
        LDA #&19            ; it has ended by a BRK
        JSR give2
        BRA stop

; A byte to register 1, 2, and one from register 2, 4; all but A stay.
wrch:   BIT &FEF8
        BVC wrch
        STA &FEF9
        RTS
give2:  BIT &FEFA
        BVC give2
        STA &FEFB
        RTS
take2:  BIT &FEFA
        BPL take2
        LDA &FEFB
        RTS
take4:  BIT &FEFE
        BPL take4
        LDA &FEFF
        RTS

; OSRDCH: a byte of the input in A; C is set where it is at its end.
rdch:   LDA #0
        JSR give2
        JSR take2
        ASL A
        JMP take2
; OSBGET: the same of file Y, of which there is 0.
bget:   LDA #&0E
        JSR give2
        TYA
        JSR give2
        JSR take2
        ASL A
        JMP take2
; OSBPUT: A to file Y: 1 is the output, 2 that of errors.
bput:   PHA
        LDA #&10
        JSR give2
        TYA
        JSR give2
        PLA
        JSR give2
        PHA
        JSR take2
        PLA
        RTS
; OSBYTE: 82 to 84 are told here.
byte:   CMP #&82
        BEQ high
        CMP #&83
        BEQ low
        CMP #&84
        BEQ top
        PHA
        CMP #&80
        BCS long
        LDA #&04
        JSR give2
        TXA
        JSR give2
        PLA
        JSR give2
        PHA
        JSR take2
        TAX
        PLA
        RTS
long:   LDA #&06
        JSR give2
        TXA
        JSR give2
        TYA
        JSR give2
        PLA
        JSR give2
        PHA
        JSR take2
        ASL A
        JSR take2
        TAY
        JSR take2
        TAX
        PLA
        RTS
high:   LDX #0              ; the high half of addresses
        LDY #0
        RTS
low:    LDX #&00            ; memory for programs
        LDY #&08
        RTS
top:    LDX #&00
        LDY #&F8
        RTS
; OSWORD 0: a line of the input into the buffer that X and Y tell; its length in Y, C set where there is none.
word:   CMP #0
        BEQ line
        BRK
        byte 0
line:   STX &F8
        STY &F9
        LDA #&0A
        JSR give2
        LDY #4              ; the highest and the lowest letter, and how many
most:   LDA (&F8),Y
        JSR give2
        DEY
        CPY #1
        BNE most
        LDA #&07            ; where a host would keep it
        JSR give2
        LDA #&00
        JSR give2
        JSR take2
        ASL A
        BCS none
        LDA (&F8)
        STA &F6
        LDY #1
        LDA (&F8),Y
        STA &F7
        DEY
letter: JSR take2
        STA (&F6),Y
        INY
        CMP #13
        BNE letter
        DEY
        CLC
none:   LDA #0
        RTS

        org &FFCE
        byte 0,0,0          ; OSFIND, OSGBPB: a BRK is where there is no call
        byte 0,0,0
        JMP bput            ; FFD4
        JMP bget            ; FFD7
        byte 0,0,0          ; OSARGS, OSFILE
        byte 0,0,0
        JMP rdch            ; FFE0
        CMP #13             ; FFE3 OSASCI
        BNE osw
        LDA #10             ; FFE7 OSNEWL
        JSR osw
        LDA #13
osw:    JMP wrch            ; FFEE
        JMP word            ; FFF1
        JMP byte            ; FFF4
        byte 0,0,0          ; OSCLI
        word nmi, reset, irq
