; A disc filing system for the WD1770, written from the public interfaces alone.
.setcpu "6502"
.include "dfs.inc"
.segment "CODE"
        .byte 0, 0, 0
        JMP service
        .byte $82, <copyright, 1
title:  .byte "DFS", 0, "1", 0
copyright = *-1
        .byte "(C) beebtube", 0

; --- Service calls ---

service:
        CMP #4
        BEQ svc_command_far
        CMP #$12
        BEQ svc_select
        CMP #1
        BEQ svc_shared
        CMP #2
        BEQ svc_private
        CMP #$0A
        BEQ svc_claim
        CMP #3
        BEQ svc_start_far
        CMP #8
        BEQ svc_word
        CMP #9
        BEQ svc_help
        CMP #$FF
        BEQ svc_tube_far
        CMP #$FE
        BEQ svc_first_line_far
        RTS
svc_tube_far:
        JMP svc_tube
svc_first_line_far:
        JMP svc_first_line
svc_command_far:
        JMP svc_command
svc_start_far:
        JMP svc_start
svc_help:
        JMP help
svc_word:
        JMP word_7f

svc_shared:                     ; pages 0E to 16
        CPY #$17
        BCS :+
        LDY #$17
:       RTS
svc_private:                    ; two pages, where 1000 to 11FF are kept while others have them
        TYA
        STA rom_work,X
        JSR init
        INY
        INY
        LDX rom
        LDA #2
        RTS
svc_select:
        CPY #4
        BNE :+
        JSR start
        LDX rom
        LDA #0
:       RTS

; The shared workspace is claimed: what is in it goes to the private pages.
svc_claim:
        LDA rom_work,X
        BMI @end                ; it is not ours now
        TYA
        PHA
        JSR flush_all
        LDX rom
        JSR to_private
        LDA rom_work,X
        ORA #$80
        STA rom_work,X
        PLA
        TAY
@end:   LDX rom
        LDA #$0A
        RTS
to_private:
        LDA t0
        PHA
        LDA t1
        PHA
        LDA rom_work,X
        AND #$7F
        STA t1
        LDY #0
        STY t0
:       LDA $1000,Y
        STA (t0),Y
        INY
        BNE :-
        INC t1
:       LDA $1100,Y
        STA (t0),Y
        INY
        BNE :-
        JMP pull_t
; The shared workspace is this filing system's: if others had it, it is claimed. A, X and Y stay.
own:    PHA
        TXA
        PHA
        LDX rom
        LDA rom_work,X
        BPL @end
        TYA
        PHA
        LDA #143
        LDX #$0A
        JSR OSBYTE
        JSR from_private
        PLA
        TAY
@end:   PLA
        TAX
        PLA
        RTS
from_private:
        LDA t0
        PHA
        LDA t1
        PHA
        LDX rom
        LDA rom_work,X
        AND #$7F
        STA rom_work,X
        STA t1
        LDY #0
        STY t0
:       LDA (t0),Y
        STA $1000,Y
        INY
        BNE :-
        INC t1
:       LDA (t0),Y
        STA $1100,Y
        INY
        BNE :-
        JSR no_buffers
pull_t: PLA
        STA t1
        PLA
        STA t0
        RTS
; No buffer and no catalogue is in memory.
no_buffers:
        LDA #$FF
        STA cat_drive
        LDX #0
:       STA ch_buf,X
        STA ch_buf+1,X
        TXA
        CLC
        ADC #$20
        TAX
        LDA #$FF
        CPX #$A0
        BNE :-
        RTS

; The state after a reset.
init:   TYA
        PHA
        LDY #0
        TYA
:       STA ws,Y
        STA ch,Y
        INY
        BNE :-
        LDA #'$'
        STA cur_dir
        STA lib_dir
        LDX #buffers
        LDY #0
:       TXA
        STA ch_page,Y
        INX
        TYA
        CLC
        ADC #$20
        TAY
        CPY #$A0
        BNE :-
        JSR no_buffers
        STA heads
        STA heads+1
        PLA
        TAY
        RTS

; The start of a filing system after a reset: no key, or D.
svc_start:
        TYA
        PHA
        LDA #122
        JSR OSBYTE
        CPX #$FF
        BEQ @go
        CPX #$32
        BEQ @key
        PLA
        TAY
        LDX rom
        LDA #3
        RTS
@key:   LDA #120                ; the key types nothing
        LDY #0
        JSR OSBYTE
@go:    JSR print
        .byte "DFS", 13, 13, 0
        JSR start
        PLA
        BNE @done
        JSR boot
@done:  LDX rom
        LDA #0
        RTS

; The vectors become this filing system's.
start:  LDA #6
        JSR @fsc
        LDX #0
        LDY #$1B
@vector:
        TYA
        STA FILEV,X
        LDA #$FF
        STA FILEV+1,X
        LDA entries,X
        STA ext_vectors,Y
        LDA entries+1,X
        STA ext_vectors+1,Y
        LDA rom
        STA ext_vectors+2,Y
        INY
        INY
        INY
        INX
        INX
        CPX #14
        BNE @vector
        LDA #143
        LDX #$0F
        LDY #0
        JMP OSBYTE
@fsc:   JMP (FSCV)
entries:
        .word osfile, osargs, osbget, osbput, osgbpb, osfind, osfsc

; The option of the disc in drive 0 is done: 1 *LOAD, 2 *RUN, 3 *EXEC of $.!BOOT.
boot:   LDA #0
        STA drive
        LDA #$80
        STA quiet
        JSR get_cat
        LDA #0
        STA quiet
        BCS @end                ; no disc is there
        LDA cat1+6
        LSR A
        LSR A
        LSR A
        LSR A
        AND #3
        BEQ @end
        TAX
        DEX
        TXA
        ASL A
        ASL A
        ASL A
        ASL A
        ADC #<boots
        TAX
        LDA #0
        ADC #>boots
        TAY
        JMP OSCLI
@end:   RTS
boots:  .byte "LOAD :0.$.!BOOT", 13
        .byte "RUN :0.$.!BOOT", 13, 13
        .byte "EXEC :0.$.!BOOT", 13

; --- Texts and errors ---

; The text behind a call, up to 0.
print:  PLA
        STA pp
        PLA
        STA pp+1
@next:  INC pp
        BNE :+
        INC pp+1
:       LDY #0
        LDA (pp),Y
        BEQ @end
        JSR OSASCI
        JMP @next
@end:   LDA pp+1
        PHA
        LDA pp
        PHA
        RTS
space:  LDA #' '
        JMP OSWRCH
hex:    PHA
        LSR A
        LSR A
        LSR A
        LSR A
        JSR digit
        PLA
        AND #$0F
digit:  JSR hex_char
        JMP OSWRCH
hex_char:
        CMP #10
        BCC :+
        ADC #6
:       ADC #'0'
        RTS

; The error whose number and text are behind a call: they go to 0100, where all ROMs see them.
fail:   PLA
        STA pp
        PLA
        STA pp+1
        JSR tube_end
        LDY #0
        STY $0100
:       INY
        LDA (pp),Y
        STA $0100,Y
        BNE :-
        LDA fault
        BEQ @go
        LDX #0                  ; " 10 at 00/00"
@fault: LDA fault_text,X
        BMI @hex
        BEQ @put
        STA $0100,Y
        INY
@after: INX
        BNE @fault
@hex:   STX t1
        CMP #$81
        BEQ @track
        BCS @sector
        LDA nmi_status
        BCC @two
@track: LDA trk
        JMP @two
@sector:
        LDA sct
@two:   PHA
        LSR A
        LSR A
        LSR A
        LSR A
        JSR hex_char
        STA $0100,Y
        INY
        PLA
        AND #$0F
        JSR hex_char
        STA $0100,Y
        INY
        LDX t1
        BNE @after
@put:   STA $0100,Y
@go:    LDA #0
        STA fault
        STA quiet
        JMP $0100
fault_text:
        .byte " ", $80, " at ", $81, "/", $82, 0

.include "disc.s"
.include "catalogue.s"
.include "change.s"
.include "files.s"
.include "commands.s"
.include "word7f.s"
.include "host.s"
