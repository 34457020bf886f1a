; The disc controller: sectors to memory and back, by NMI.

; The routines for 0D00. Both end a command at the first NMI that is not for a byte.
nmi_read:
        PHA
        LDA COMMAND
        AND #$5F
        CMP #$03
        BNE nr_end
        LDA DATA
        BIT nmi_done
        BMI nr_out
nmi_read_at = *+1-nmi_read
        STA $FFFF
nmi_read_on = *-nmi_read
        INC NMI+nmi_read_at
        BNE :+
        INC NMI+nmi_read_at+1
:       DEC nmi_left
        BNE nr_out
        DEC nmi_done
nr_out:   PLA
        RTI
nr_end:   STA nmi_status
        DEC nmi_ended
        PLA
        RTI
nmi_read_end:
nmi_write:
        PHA
        LDA COMMAND
        AND #$5F
        CMP #$03
        BNE nw_end
        BIT nmi_done
        BMI nw_zero               ; the rest of the sector is 00
nmi_write_at = *+1-nmi_write
        LDA $FFFF
        STA DATA
nmi_write_on = *-nmi_write
        INC NMI+nmi_write_at
        BNE :+
        INC NMI+nmi_write_at+1
:       DEC nmi_left
        BNE nw_out
        DEC nmi_done
nw_out:   PLA
        RTI
nw_zero:  LDA #0
        STA DATA
        PLA
        RTI
nw_end:   STA nmi_status
        DEC nmi_ended
        PLA
        RTI
nmi_write_end:

; Reads or writes len bytes at adr from sector first of the drive on. With `quiet` C is set after a
; fault; else it is an error.
read:   LDA #$80
        BNE transfer
write:  LDA #$A0
transfer:
        STA dcmd
        JSR nmi_claim
@sector:
        LDA len
        ORA len+1
        ORA len+2
        BNE :+
        JSR nmi_release
        CLC
        RTS
:       JSR track_sector
        LDA #3
        STA tries
@again: JSR seek
        LDA len+1
        ORA len+2
        BEQ :+
        LDA #0
        BEQ @whole
:       LDA len
@whole: STA nmi_left
        JSR point
        LDA sct
        STA SECTOR
        LDA dcmd
        JSR do
        LDA nmi_status
        BEQ @next
        LDX #$FF                ; the head may be elsewhere
        JSR set_head
        LDA nmi_status
        CMP #$40
        BCS @bad                ; it may not be written
        DEC tries
        BNE @again
@bad:   JSR nmi_release
        JSR tube_end
        BIT quiet
        BMI @answer
        LDA #$FF
        STA cat_drive
        LDA nmi_status
        CMP #$40
        BCS @locked
        STA fault
        JSR fail
        .byte 199, "Disc fault", 0
@locked:
        JSR fail
        .byte 201, "Disc read only", 0
@answer:
        SEC
        RTS
@next:  INC adr+1
        BIT via
        BPL :++
        LDX #1
:       INC number,X
        BNE :+
        INX
        CPX #4
        BNE :-
:       INC first
        BNE :+
        INC first+1
:       LDA len+1
        ORA len+2
        BEQ @last
        LDA len+1
        BNE :+
        DEC len+2
:       DEC len+1
        JMP @sector
@last:  STA len
        JMP @sector

; The address goes into the routine at 0D00.
point:  LDA #0
        STA nmi_done
        LDA dcmd
        AND #$20
        BNE @write
        BIT via
        BMI @to
        LDA adr
        STA NMI+nmi_read_at
        LDA adr+1
        STA NMI+nmi_read_at+1
        RTS
@write: BIT via
        BMI @from
        LDA adr
        STA NMI+nmi_write_at
        LDA adr+1
        STA NMI+nmi_write_at+1
        RTS
; The second processor: each byte goes through register 3, whose address does not go on, with LDA in
; place of INC.
@to:    LDA #$AD
        STA NMI+nmi_read_on
        LDA #1
        LDX #nmi_read_at
        BNE :+
@from:  LDA #$AD
        STA NMI+nmi_write_on
        LDA #0
        LDX #nmi_write_at
:       PHA
        LDA #<R3
        STA NMI,X
        LDA #>R3
        STA NMI+1,X
        PLA
        JMP tube_move

; Track and sector of first, ten to a track.
track_sector:
        LDA #0
        STA trk
        LDA first
        STA sct
        LDX first+1
@ten:   LDA sct
        CPX #0
        BNE @less
        CMP #10
        BCC @end
@less:  SEC
        SBC #10
        STA sct
        BCS :+
        DEX
:       INC trk
        BNE @ten
@end:   RTS

; The head of the drive goes to the track.
seek:   LDA drive
        AND #1
        TAX
        LDA heads,X
        CMP #$FF
        BNE @known
        LDA #$00                ; restore
        JSR step
        LDX #0
        JSR set_head
        LDA #0
@known: STA TRACK
        CMP trk
        BEQ @end
        LDA trk
        STA DATA
        LDA #$10                ; seek
        JSR step
        LDX trk
        JSR set_head
@end:   RTS
; The head of the drive is at track X.
set_head:
        LDA drive
        LSR A
        TXA
        BCS :+
        STA heads
        RTS
:       STA heads+1
        RTS
; A command that steps: the links on the keyboard have the time of a step.
step:   STA step_command
        LDA options
        LSR A
        LSR A
        LSR A
        LSR A
        AND #3
        EOR #3
        ORA step_command
; Command A, up to its end. Without a disc it may have none: after two seconds ESCAPE ends it.
do:     LDX #0
        STX nmi_ended
        LDY #0
        STY slow
        STA COMMAND
@wait:  LDA nmi_ended
        BNE @end
        INX
        BNE @wait
        INY
        BNE @wait
        LDA slow
        CMP #4
        BCS :+
        INC slow
        BCC @wait
:       BIT escape
        BPL @wait
        LDA #$D0
        STA COMMAND
        LDX #$FF
        JSR set_head
        JSR nmi_release
        JSR tube_end
        LDA #126
        JSR OSBYTE
        JSR fail
        .byte 17, "Escape", 0
@end:   RTS

nmi_claim:
        LDA #143
        LDX #$0C
        LDY #$FF
        JSR OSBYTE
        STY nmi_old
        LDX drive
        LDA latches,X
        STA LATCH
        LDA dcmd
        AND #$20
        BNE @write
        LDY #nmi_read_end-nmi_read-1
:       LDA nmi_read,Y
        STA NMI,Y
        DEY
        BPL :-
        RTS
@write: LDY #nmi_write_end-nmi_write-1
:       LDA nmi_write,Y
        STA NMI,Y
        DEY
        BPL :-
        RTS
nmi_release:
        LDY nmi_old
        LDA #143
        LDX #$0B
        JMP OSBYTE
latches:
        .byte $29, $2A, $2D, $2E

; --- The second processor ---

; C is set if the address of four bytes in `number` is its own.
is_tube:
        CLC
        LDA tube
        BPL @end
        LDA number+3
        CMP #$FF
        BNE @yes
        LDA number+2
        CMP #$FE                ; FFFE0000 and up is the host's
        BCC @yes
        CLC
@end:   RTS
@yes:   SEC
        RTS
; The Tube is claimed.
tube_claim:
        LDA #$C0+TUBE_OURS
        JSR TUBE_CALL
        BCC tube_claim
        RTS
; A transfer of kind A at `number` begins.
tube_move:
        LDX #<number
        LDY #>number
        JMP TUBE_CALL
; What was claimed is released. The flags stay.
tube_end:
        PHP
        LDA via
        ORA via_mem
        BPL @end
        LDA #0
        STA via
        STA via_mem
        LDA #$80+TUBE_OURS
        JSR TUBE_CALL
@end:   PLP
        RTS
; The memory of a transfer of sectors is at `number`.
memory_at_number:
        LDA number
        STA adr
        LDA number+1
        STA adr+1
        JSR is_tube
        BCC :+
        JSR tube_claim
        DEC via
:       RTS
