; An operating system for the BBC Microcomputer Model B, written from its public interfaces alone.
.setcpu "6502"
.include "os.inc"
.segment "CODE"
font:
.include "font.s"
.include "vdu.s"
.include "graphics.s"
.include "irq.s"
.include "sound.s"
.include "osbyte.s"
.include "osword.s"
.include "cli.s"

; --- Reset ---

reset:  LDA #$40                ; RTI, for an NMI that comes early
        STA nmi
        SEI
        CLD
        LDX #$FF
        TXS
        LDA SYSIER              ; after power-on no interrupt of the 6522 is on
        ASL A
        PHA
        BEQ @power
        LDA break_effect
        AND #$02
        BEQ @kept
@power: LDX #$04                ; memory from 0400 up to 7FFF
        STX t1
        LDA #0
        STA t0
        TAY
@clear: STA (t0),Y
        INY
        BNE @clear
        INC t1
        BIT t1
        BPL @clear
@kept:  LDX #$0F                ; the latch: bit 3 off so that keys can be read
        STX SYSDDRB
@latch: STX SYSB                ; all bits 1: no LED, no sound, the keyboard free
        DEX
        CPX #8
        BCS @latch
        LDX #0
        STX key_status
        PLA
        BEQ @cold
        LDX #1                  ; CTRL
        JSR key_read
        ASL A
        LDA #0
        BCC @type
        LDA #2
        BNE @type
@cold:  TAX                     ; power-on: all of zero page and pages 2 and 3
:       STA $00,X
        STA $0200,X
        STA $0300,X
        INX
        BNE :-
        LDA #1
@type:  STA os_temp
        LDX #$7F                ; variables: a soft BREAK leaves those from OSBYTE 240 up
        LDY #0
        CMP #0
        BEQ :+
        LDX #$86
:       TYA
@zero:  STA $0200,X
        DEX
        CPX #$36
        BCS @zero
        LDX #defaults_end-defaults-2
@set:   LDY defaults,X
        LDA defaults+1,X
        STA $0200,Y
        DEX
        DEX
        BPL @set
        LDX #$35
@vector:
        LDA vectors,X
        STA $0200,X
        DEX
        BPL @vector
        LDA os_temp
        STA break_type
        BEQ @soft
        JSR soft_clear          ; the function keys
        LDX #$0E
        LDA #0
:       STA time_a,X
        DEX
        BPL :-
        LDA #5
        STA timer_switch
        LDA #1
        STA printer
        LDA #$0A
        STA printer_skip
        LDA #$80
        STA ram_size
        LDA #$FF
        STA language
        LDX #9                  ; the links on the keyboard
:       JSR key_read
        ASL A
        ROR options             ; the last column is bit 0
        DEX
        CPX #2
        BCS :-
        LDA options
        EOR #$FF
        STA options
@soft:  LDX #0                  ; SHIFT: is remembered for the start
        JSR key_read
        ASL A
        ROR start_flag          ; bit 7, for a moment
        LDX #8                  ; buffers
:       BIT vbit
        JSR cnpv
        DEX
        BPL :-
        LDA #0
        LDX #key_before-key_new
:       STA key_new,X
        DEX
        BPL :-
        LDX #9
:       STA events,X
        DEX
        BPL :-
        STA escape
        STA tube
        STA printer_on
        STA soft_key
        STA editing
        STA key_up
        STA sound_off
        STA sound_busy
        LDA start_flag
        PHA
        LDA #$80                ; a paged ROM may clear bit 7: no first line
        STA start_flag
        JSR sound_init
        LDA #$7F                ; the 6522s
        STA SYSIER
        STA USRIER
        STA SYSIFR
        LDA #$04                ; CA1 and CA2: keyboard and vertical sync
        STA SYSPCR
        LDA #$0E
        STA USRPCR
        LDA #$60                ; timer 1 goes round by itself
        STA SYSACR
        LDA #$0E                ; 10,000 microseconds
        STA SYSL1L
        LDA #$27
        STA SYST1H
        LDA #$D3                ; timer 1, CB1, CA1, CA2
        STA SYSIER
        LDA #$0B                ; the keyboard free again
        STA SYSB
        JSR leds
        LDA #0
        JSR vdu_reset
        LDA options
        AND #7
        JSR set_mode
        JSR rom_search
        LDX adc_most
        JSR adc_begin
        LDA break_jump          ; *FX247: a jump that is made before and after
        CMP #$4C
        BNE :+
        CLC
        JSR break_jump
:       LDY #$0E                ; workspace: shared, then private
        LDX #1
        JSR service
        LDX #2
        JSR service
        STY hwm_primary
        STY hwm
        LDA #$81                ; is there a Tube? Its flag Q reads back
        STA TUBE
        LDA TUBE
        LSR A
        BCC @no_tube
        LDX #$FF
        LDY #0
        JSR service
        TXA
        BNE @no_tube
        LDA #$FF
        STA tube
        LDX #$FE
        LDY hwm
        JSR service
        STY hwm_primary
        STY hwm
        JMP @shown
@no_tube:
        LDA #$01                ; flag Q off again
        STA TUBE
        BIT start_flag
        BPL @shown
        LDA break_type
        PHA
        JSR print
        .byte 13, "beebtube 32K", 0
        PLA
        BEQ :+
        LDA #7
        JSR OSWRCH
:       JSR print
        .byte 13, 13, 0
@shown: LDA break_jump
        CMP #$4C
        BNE :+
        SEC
        JSR break_jump
:       CLI
        PLA                     ; SHIFT, and its reversal by bit 3 of the options
        EOR #$80
        TAY
        LDA options
        AND #8
        BNE :+
        TYA
        EOR #$80
        TAY
:       TYA
        AND #$80
        TAY                     ; 0: start the disc
        LDX #3
        JSR service
        LDA soft+$0A            ; *KEY 10 is typed by BREAK
        CMP soft+$0B
        BEQ :+
        LDX #0
        LDA #$8A
        JSR insert
:       LDX break_type
        BNE @highest            ; a soft BREAK goes back to the language
        LDX language
        BPL enter
@highest:
        LDX #15
:       LDA rom_types,X
        AND #$40
        BNE enter
        DEX
        BPL :-
        LDA tube
        BMI enter_tube
        BRK
        .byte 249, "Language?", 0

; OSBYTE 142: ROM X is entered as a language.
enter:  CLC
        PHP
        STX language
        JSR select
        LDA #<$8008             ; its title, and then the error pointer behind it
        STA error
        LDA #>$8008
        STA error+1
        LDY #1
        BIT tube
        BMI @title
:       LDA (error),Y
        BEQ :+
        JSR OSASCI
        INY
        BNE :-
:       JSR OSNEWL
        JSR OSNEWL
        JMP @at
@title: LDA (error),Y
        BEQ @at
        INY
        BNE @title
@at:    TYA
        CLC
        ADC error
        STA error
        PLP
        LDA #1
        BIT tube
        BPL :+
        JMP $0400               ; the language goes over to the second processor
:       JMP $8000
enter_tube:
        LDA #0
        CLC
        JMP $0400

; The texts behind a call, up to 0: 13 is a new line.
print:  PLA
        STA ptr
        PLA
        STA ptr+1
@next:  INC ptr
        BNE :+
        INC ptr+1
:       LDY #0
        LDA (ptr),Y
        BEQ @end
        TAX
        LDA ptr
        PHA
        LDA ptr+1
        PHA
        TXA
        JSR OSASCI
        PLA
        STA ptr+1
        PLA
        STA ptr
        JMP @next
@end:   LDA ptr+1
        PHA
        LDA ptr
        PHA
        RTS

; The VDU driver's state at a reset.
vdu_reset:
        STA vdu_status
        STA vdu_queue
        LDX #6
:       LDA font_rom,X
        STA font_pages,X
        DEX
        BPL :-
        RTS

; The variables that do not begin as 0.
defaults:
        .byte <variables, <(variables-166), <variables+1, >(variables-166)
        .byte $38, <ext_vectors, $39, >ext_vectors, $3A, <rom_types, $3B, >rom_types
        .byte $3C, <(key_codes-$10), $3D, >(key_codes-$10), $3E, $00, $3F, $03
        .byte $43, $0E, $44, $0E
        .byte $4B, $FF, $4D, 4
        .byte $51, 25, $52, 25, $53, 25, $54, 50, $55, 8
        .byte $5A, $20
        .byte $63, 3, $64, $90, $65, 100, $66, 6
        .byte $6B, 9, $6C, 27, $6D, 1, $6E, $D0, $6F, $E0, $70, $F0
        .byte $71, 1, $72, $80, $73, $90
        .byte $77, $FF, $78, $FF, $79, $FF
defaults_end:

vectors:
        .word userv, brkv, irq1, irq2, oscli, osbyte, osword, oswrch, osrdch
        .word no_file, no_args, no_bget, no_bput, no_gbpb, no_find, no_fsc
        .word nothing, uptv, nothing, nothing, keyv, insv, remv, cnpv
        .word nothing, nothing, nothing
vectors_end:

; --- Paged ROMs ---

; ROM X is selected.
select: STX rom
        STX ROMSEL
        RTS

; Which slots have a ROM, and of which type.
rom_search:
        LDA #$FF
        STA basic_rom
        LDX #15
@slot:  JSR select
        LDA #0
        STA rom_types,X
        LDY $8007               ; where 0 and (C) are
        STY ptr
        LDA #$80
        STA ptr+1
        LDY #3
:       LDA (ptr),Y
        CMP copyright,Y
        BNE @none
        DEY
        BPL :-
        LDA $8006
        STA rom_types,X
        JSR rom_twice
        LDA rom_types,X
        ASL A
        BPL @none
        BCS @none               ; a language without a service entry
        STX basic_rom
@none:  DEX
        BPL @slot
        RTS
; The same ROM in a higher slot too (sockets may answer in four slots): here it is as if absent.
rom_twice:
        LDY #0
:       LDA $8000,Y
        STA $0A00,Y
        INY
        BNE :-
        STX ptr
        LDX #15
@higher:
        CPX ptr
        BEQ @end
        LDA rom_types,X
        BEQ @next
        JSR select
:       LDA $8000,Y
        CMP $0A00,Y
        BNE @other
        INY
        BNE :-
        LDX ptr
        TYA
        STA rom_types,X
        RTS
@other: LDY #0
@next:  DEX
        BPL @higher
@end:   JMP select
copyright:
        .byte 0, "(C)"

; OSBYTE 143: service call X with Y, to ROM 15 first. X is 0 if it was claimed.
service:
        LDA rom
        PHA
        JSR service_roms
        TAX
        PLA
        STA rom
        STA ROMSEL
        RTS
service_roms:
        TXA
        LDX #15
@slot:  PHA
        LDA rom_types,X
        BPL @next
        PLA
        JSR select
        JSR $8003
        LDX rom
        CMP #0
        BEQ @end
        PHA
@next:  PLA
        DEX
        BPL @slot
@end:   RTS

; OSRDRM: the byte at rom_ptr of ROM Y.
osrdrm: LDX rom
        STY rom
        STY ROMSEL
        LDY #0
        LDA (rom_ptr),Y
        JMP select

; A vector that leads into a paged ROM: FF00 + 3 times its number, and the address and the ROM at
; 0D9F + 3 times its number.
extended:
        PHA                     ; A, and room for the flags' way back
        PHA
        PHA
        PHA
        PHP
        PHA
        TXA
        PHA
        TYA
        PHA
        TSX
        LDA #>(extended_back-1)
        STA $0108,X
        LDA #<(extended_back-1)
        STA $0107,X
        LDY $0109,X             ; behind the JSR of FF00 and up: its low byte
        LDA rom
        STA $0109,X
        LDA ext_vectors-2,Y
        STA $0105,X
        LDA ext_vectors-1,Y
        STA $0106,X
        LDA ext_vectors,Y
        STA rom
        STA ROMSEL
        PLA
        TAY
        PLA
        TAX
        PLA
        RTI
extended_back:
        PHP
        PHA
        TXA
        PHA
        TSX
        LDA $0104,X             ; the ROM of before
        STA rom
        STA ROMSEL
        LDA $0103,X             ; the flags go to where they are pulled last
        STA $0105,X
        PLA
        TAX
        PLA
        PLP
        PLP
        PLP
        RTS

; --- Characters out and in ---

oswrch: PHA
        TXA
        PHA
        TYA
        PHA
        TSX
        LDA $0103,X
        PHA
        BIT net_wrch
        BPL :+
        TAY
        LDA #4
        JSR @net
        BCS @end
:       CLC
        LDA destination
        AND #$02
        BNE :+
        PLA
        PHA
        JSR vdu
:       LDA destination         ; the printer: bit 2 off, bit 3 on in any case
        AND #$08
        BNE @print
        BCC @spool
        LDA destination
        AND #$44
        BNE @spool
@print: PLA
        PHA
        JSR print_char
@spool: LDA destination
        AND #$10
        BNE @end
        LDY spool
        BEQ @end
        PLA
        PHA
        JSR OSBPUT
@end:   PLA
        PLA
        TAY
        PLA
        TAX
        PLA
        RTS
@net:   JMP (NETV)

; A to the printer's buffer, or to the user's printer routine.
print_char:
        CMP printer_skip
        BEQ @end
        LDX printer
        BEQ @end
        LDX #3
        STA cmd_char
@wait:  LDA cmd_char
        JSR insert
        BCC @in
        BIT escape
        BMI @end
        PHP
        CLI
        PLP
        JMP @wait
@in:    LDA printer_on          ; a driver that is active takes it later
        BNE @end
        LDA #1
        CMP printer
        BEQ @end                ; the clock begins with printer 1
        PHP
        SEI                     ; the driver's next turn comes after this
        STA printer_on
        JSR printer_call
        BCC :+
        JSR osbyte_123          ; C: it stays dormant
:       PLP
@end:   RTS
; UPTV for printer Y, with the reason A: 0 the driver is active and has its turn, each hundredth of
; a second; 1 a character waits, and the driver becomes active; 2 and 3 VDU 2 and 3; 5 OSBYTE 5.
printer_call:
        LDX #3
        LDY printer
        JMP (UPTV)
; Without a routine of the user's printer 3 is the latch on the 1 MHz bus, and others drop what comes.
uptv:   CMP #2
        BCS @end
@next:  LDX #3
        CLV
        JSR remove
        BCS @empty
        LDY printer
        CPY #3
        BNE @next
        STA LATCH
        JMP @next
@empty: CLC
        JMP osbyte_123
@end:   RTS

osrdch: TXA
        PHA
        TYA
        PHA
@again: BIT escape
        BMI @escape
        BIT net_rdch
        BPL :+
        LDA #6
        JSR @net
:       JSR next_char
        BCS @again
        STA os_temp
        PLA
        TAY
        PLA
        TAX
        LDA os_temp
        CLC
        RTS
@escape:
        PLA
        TAY
        PLA
        TAX
        LDA #27
        SEC
        RTS
@net:   JMP (NETV)

; A character of the *EXEC file, or else of the input. C is set if there is none yet.
next_char:
        LDY exec
        BEQ @key
        JSR OSBGET
        BCC @end
        JSR exec_close
@key:   LDX input_source
        JMP take_char
@end:   RTS

; A character of input buffer X, after function keys and cursor keys. C is set if there is none.
take_char:
        TXA
        AND #1
        TAX
        LDY soft_length         ; a function key's string goes on
        BEQ @buffer
        LDY soft_ptr
        LDA soft,Y
        INC soft_ptr
        DEC soft_length
        CLC
        RTS
@buffer:
        CLV
        JSR remove
        BCS @none
        CPX #0
        BNE @plain
        TAY
        BPL @plain
        CMP #$C0
        BCS @high
        AND #$0F
        CMP #$0B
        BCC @class
        LDX edit_state          ; cursor keys, where they edit or give codes
        CPX #2
        BCS @class
        CPX #1
        BEQ @codes
        TYA
        CMP #$90
        BCS @class_y
        CMP #$8B
        BEQ @copy
        JSR edit_move
        SEC
        RTS
@codes: TYA
        CMP #$90
        BCS @class_y
        SBC #$03                ; C is clear: 87 to 8B
        CLC
        RTS
@copy:  JSR edit_copy
        CMP #1
        BCC @empty
@plain: CLC
        RTS
@empty: SEC
@none:  RTS
@class_y:
        TYA
        AND #$0F
@class: PHA                     ; the number; 80, 90, A0, B0 have a class each
        TYA
        LSR A
        LSR A
        LSR A
        LSR A
        AND #3
        CLC
        ADC #4
        TAX
        PLA
        JMP @by
@high:  AND #$0F
        PHA
        TYA
        LSR A
        LSR A
        LSR A
        LSR A
        AND #3
        TAX
        PLA
@by:    STA os_temp
        LDA code_bases,X
        BEQ @empty              ; 0: ignored
        CMP #1
        BEQ @soft
        CLC                     ; a base
        ADC os_temp
        CLC
        RTS
@soft:  LDX os_temp
        LDA soft,X
        STA soft_ptr
        SEC
        LDA soft+1,X
        SBC soft,X
        STA soft_length
        SEC
        RTS

; --- Errors and vectors that nobody has taken ---

brkv:   JSR print
        .byte 13, 0
        LDY #1
:       LDA (error),Y
        BEQ :+
        JSR OSASCI
        INY
        BNE :-
:       JSR OSNEWL
        LDX language
        BMI :+
        JSR select
        LDA #1
        JMP $8000
:       JMP :-

userv:  BRK
        .byte 254, "Bad command", 0

no_fsc: CMP #3                  ; *NAME, */NAME and *RUN
        BEQ userv
        CMP #2
        BEQ no_system
        CMP #4
        BEQ no_system
        CMP #5
        BEQ no_system
        RTS
no_args:
        CMP #0                  ; OSARGS 0, 0: which filing system there is
        BNE no_system
        CPY #0
        BNE no_system
        RTS
no_find:
        CMP #0                  ; to close nothing is nothing
        BNE no_system
        RTS
no_file:
no_bget:
no_bput:
no_gbpb:
no_system:
        BRK
        .byte 246, "No filing system", 0

.segment "VECTORS"
.repeat 27
        JSR extended
.endrepeat
        .res $B6-$51, $FF
        .byte vectors_end-vectors
        .word vectors
        JMP osrdrm              ; FFB9
        JMP vdu                 ; FFBC
        JMP oseven              ; FFBF
        JMP gsinit              ; FFC2
        JMP gsread              ; FFC5
        JMP osrdch              ; FFC8
        JMP oswrch              ; FFCB
OSFIND: JMP (FINDV)
OSGBPB: JMP (GBPBV)
OSBPUT: JMP (BPUTV)
OSBGET: JMP (BGETV)
OSARGS: JMP (ARGSV)
OSFILE: JMP (FILEV)
OSRDCH: JMP (RDCHV)
OSASCI: CMP #13                 ; FFE3
        BNE OSWRCH
OSNEWL: LDA #10                 ; FFE7
        JSR OSWRCH
        LDA #13                 ; FFEC
OSWRCH: JMP (WRCHV)             ; FFEE
OSWORD: JMP (WORDV)             ; FFF1
OSBYTE: JMP (BYTEV)             ; FFF4
OSCLI:  JMP (CLIV)              ; FFF7
        .word nmi, reset, irq
        .assert OSASCI = $FFE3 && OSWRCH = $FFEE && OSCLI = $FFF7, error, "the entry points"
