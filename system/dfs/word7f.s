; OSWORD 7F: commands of the disc controller in the form of an 8271.

; Block: drive, address (4), the number of parameters, the command, parameters, and the result
; behind them.
word_7f:
        LDA byte_a
        CMP #$7F
        BEQ @ours
        LDA #8
        LDX rom
        RTS
@ours:  JSR own
        TYA
        PHA
        LDA byte_x
        STA blk
        LDA byte_y
        STA blk+1
        LDA drive
        PHA
        LDY #0
        LDA (blk),Y
        BMI :+                  ; else the drive of before
        AND #3
        STA word_drive
:       LDA word_drive
        STA drive
        LDY #1
        LDX #0
:       LDA (blk),Y
        STA number,X
        INY
        INX
        CPX #4
        BNE :-
        LDY #7
        LDA (blk),Y             ; the track
        STA trk
        INY
        LDA (blk),Y
        STA sct
        INY
        LDA (blk),Y             ; sectors, and their size
        AND #$1F
        STA len+1
        LDA #0
        STA len
        STA len+2
        LDY #6
        LDA (blk),Y
        AND #$3F
        CMP #$13                ; read
        BEQ @read
        CMP #$17
        BEQ @read
        CMP #$0B                ; write
        BEQ @write
        CMP #$0F
        BEQ @write
        CMP #$1F                ; verify
        BEQ @verify
        CMP #$29                ; seek
        BEQ @seek
        CMP #$2C                ; the drive's status: it is ready
        BEQ @status
        CMP #$35
        BEQ @good
        CMP #$3A
        BEQ @good
        LDA #$FE                ; not known
        BNE @result
@seek:  LDA #0
        STA sct
        STA len
        STA len+1
@verify:
        LDA #0                  ; its head goes there; sectors are not compared
        STA len+1
@read:  LDA #$80
        BNE @move
@write: LDA #$FF
        STA cat_drive
        LDA #$A0
@move:  PHA
        LDA #$80
        STA quiet
        JSR @sector
        LDA len+1
        BEQ :+                  ; no sector moves
        JSR memory_at_number
:       PLA
        JSR transfer
        PHP
        JSR tube_end
        LDA #0
        STA quiet
        PLP
        BCC @good
        LDX #$18                ; the sector is not found
        LDA nmi_status
        AND #$10
        BNE :+
        LDX #$0E
        LDA nmi_status
        AND #$08
        BNE :+
        LDX #$12                ; it may not be written
        LDA nmi_status
        AND #$40
        BNE :+
        LDX #$0A
:       TXA
        BNE @result
@status:
        LDA #$44
        BNE @result
@good:  LDA #0
@result:
        PHA
        LDY #5
        LDA (blk),Y
        CLC
        ADC #7
        TAY
        PLA
        STA (blk),Y
        PLA
        STA drive
        PLA
        TAY
        LDX rom
        LDA #0
        RTS
; first: ten times the track, and the sector.
@sector:
        LDA trk
        STA first
        LDA #0
        STA first+1
        LDX #3                  ; eight times, and twice
:       ASL first
        ROL first+1
        DEX
        BNE :-
        LDA trk
        ASL A
        PHP
        CLC
        ADC first
        STA first
        LDA first+1
        ADC #0
        PLP
        ADC #0
        STA first+1
        LDA sct
        CLC
        ADC first
        STA first
        BCC :+
        INC first+1
:       RTS
word_drive = ws+$BD
