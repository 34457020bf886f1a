; Interrupts: the clock, the keyboard, events, the converter and the printer.

irq:    STA irq_a
        PLA
        PHA
        AND #$10
        BNE is_brk
        JMP (IRQ1V)

; BRK: error points to the number and the message behind it.
is_brk: TXA
        PHA
        TYA
        PHA
        TSX
        STX byte_x
        LDA $0104,X
        CLD
        SEC
        SBC #1
        STA error
        LDA $0105,X
        SBC #0
        STA error+1
        LDA rom
        STA brk_rom
        LDX #6
        JSR service             ; paged ROMs hear of it
        LDX language
        JSR select
        PLA
        TAY
        PLA
        TAX
        LDA irq_a
        CLI
        JMP (BRKV)

irq1:   CLD
        LDA irq_a
        PHA
        TXA
        PHA
        TYA
        PHA
        LDA SYSIFR
        BPL @user
        AND irq_system
        AND SYSIER
        ASL A
        BMI @clock              ; bit 6: timer 1
        LSR A
        LSR A
        BCS @key                ; bit 0: a key went down
        LSR A
        BCS @vsync              ; bit 1
        AND #$04
        BNE @adc                ; bit 4
@user:  LDA USRIFR
        BPL @other
        AND irq_user
        AND USRIER
        AND #$02
        BNE @printer
@other: LDX #5                  ; an interrupt that nobody knows
        JSR service
        CPX #0
        BEQ done_irq
        PLA
        TAY
        PLA
        TAX
        PLA
        STA irq_a
        JMP (IRQ2V)
@key:   LDA #$01                ; the clock looks at the keys from now on
        STA SYSIER
        STA SYSIFR
        CLC
        BIT vbit                ; V
        JSR go_key
        JMP done_irq
@vsync: LDA #$02
        STA SYSIFR
        JSR frame
        JMP done_irq
@adc:   JSR converted
        JMP done_irq
@printer:
        LDA #$02
        STA USRIFR
        JSR print_next
        JMP done_irq
@clock: LDA #$40
        STA SYSIFR
        JSR tick
done_irq:
        PLA
        TAY
        PLA
        TAX
        PLA
        STA irq_a
        RTI
irq2:   LDA irq_a
        RTI
go_key: JMP (KEYV)
vbit:   .byte $40

; --- Events ---

; OSEVEN: event Y, if it is on: EVNTV gets it in A, with this A in Y and this X.
oseven: PHP
        SEI
        PHA
        STA irq_ptr
        LDA events,Y
        BEQ @off
        LDA byte_a
        PHA
        LDA byte_x
        PHA
        LDA byte_y
        PHA
        TXA
        PHA
        TYA
        PHA
        LDY irq_ptr
        JSR @go
        PLA
        TAY
        PLA
        TAX
        PLA
        STA byte_y
        PLA
        STA byte_x
        PLA
        STA byte_a
        PLA
        PLP
        CLC
        RTS
@off:   PLA
        PLP
        SEC
        RTS
@go:    JMP (EVNTV)

; --- The clock, a hundred times a second ---

tick:   LDX timer_switch        ; the clock that is not being read goes on
        TXA
        EOR #$0F
        TAY
        PHA
        SEC
        LDA #4
        STA irq_ptr
@digit: LDA variables+$5B,X     ; 0291 and 5, or 0291 and 10
        ADC #0
        STA variables+$5B,Y
        DEX
        DEY
        DEC irq_ptr
        BPL @digit
        PLA
        STA timer_switch
        LDX #4                  ; the interval timer
:       INC interval,X
        BNE :+
        DEX
        BPL :-
        LDY #5
        LDA #0
        JSR oseven
:       LDA inkey
        BNE :+
        LDA inkey+1
        BEQ :++
        DEC inkey+1
:       DEC inkey
:       SEC
        BIT vbit
        JSR go_key
        JSR sound_tick
        LDA printer_on
        BEQ :+
        LDA printer             ; a driver that is active has its turn
        CMP #1
        BEQ :++
        LDA #0
        JSR printer_call
        JMP :++
:       JSR print_start
:       BIT ADC0                ; a conversion whose end was not told
        BMI :+
        JMP converted_late
:       RTS

; --- Fifty times a second ---

frame:  DEC vsync_count
        LDA flash_count
        BEQ @event
        DEC flash_count
        BNE @event
        LDX flash_mark
        LDA ula_copy
        EOR #1
        AND #1
        BNE :+
        LDX flash_space
:       TXA
        STA flash_count
        BEQ @event              ; a time of 0: it stays
        LDA ula_copy
        EOR #1
        STA ula_copy
        STA ULA
@event: LDY #4
        LDA #0
        JMP oseven

; --- The keyboard ---

; Bit 7 of A: key X is down. X stays.
key_read:
        PHP
        SEI
        LDA #$03
        STA SYSB
        LDA #$7F
        STA SYSDDRA
        STX SYSA
        LDA SYSA
        PHA
        LDA #$0B
        STA SYSB
        PLA
        PLP
        TAY
        RTS

; N: SHIFT is down.
shift_down:
        LDX #0
        JMP key_read

; The key from number A up that is down: in X, FF if there is none. Keys key_last and key_before
; are passed over where C is set.
key_scan:
        STA t_from
        PHP
        SEI
        LDA #0
        ROL A
        STA t_skip
        LDA #$03
        STA SYSB
        LDA #$7F
        STA SYSDDRA
        LDX #0
        LDA #$FF
        STA t_found
@column:
        LDA #$0F                ; no column: then CA2 rises where one has a key down
        STA SYSA
        NOP
        LDA #$01
        STA SYSIFR
        STX SYSA
        NOP
        NOP
        LDA SYSIFR
        AND #$01
        BEQ @next
        TXA
        CLC
        ADC #$10
@row:   CMP t_from
        BCC @up
        STA SYSA
        BIT SYSA
        BPL @up
        TAY
        LDA t_skip
        BEQ @take
        TYA
        ORA #$80
        CMP key_last
        BEQ @over
        CMP key_before
        BEQ @over
@take:  CPY t_found
        BCS @over
        STY t_found
@over:  TYA
@up:    CLC
        ADC #$10
        BPL @row
@next:  INX
        CPX #10
        BNE @column
        LDA #$0B
        STA SYSB
        LDA #$01
        STA SYSIFR
        LDX t_found
        PLP
        RTS

; KEYV. C and V tell what is wanted: 0 0 SHIFT and CTRL; 1 0 a scan as by OSBYTE 121;
; 0 1 a key went down; 1 1 the clock.
keyv:   BVC @asked
        LDA #1
        BCC @on
        JMP key_tick
@on:    STA key_active
        RTS
@asked: BCS @scan
        LDX #1
        JSR key_read
        STA t_found             ; bit 7: CTRL
        DEX
        JSR key_read
        ASL A
        BIT t_none
        BCC :+
        BIT vbit                ; V: SHIFT
:       LDA t_found
        RTS
@scan:  JMP osbyte_121
t_none: .byte 0

; SHIFT and CTRL go to bits 3 and 6 of the status.
key_shifts:
        LDX #0
        JSR key_read
        ASL A
        LDA key_status
        AND #$B7
        BCC :+
        ORA #$08
:       STA key_status
        INX
        JSR key_read
        BPL :+
        LDA key_status
        ORA #$40
        STA key_status
:       RTS

key_tick:
        LDA key_active
        BNE :+
        RTS
:       LDX key_last
        BEQ @find
        JSR @down
        BMI @held
        LDA key_up              ; up twice: it is up
        BNE @gone
        INC key_up
        BNE @find
@gone:  LDA key_before
        STA key_last
        LDA #0
        STA key_before
        STA key_up
        LDA repeat_first
        STA key_delay
        JMP @find
@held:  LDA #0
        STA key_up
@find:  LDX key_before
        BEQ :+
        JSR @down
        BMI :+
        LDA #0
        STA key_before
:       LDA #$10
        SEC
        JSR key_scan
        TXA
        BMI @none
        CPX key_new             ; a new key counts when it is seen twice
        STX key_new
        BNE @end
        LDA #0
        STA key_new
        STA key_up
        LDA key_last
        STA key_before
        TXA
        ORA #$80
        STA key_last
        LDA repeat_first
        STA key_delay
        JMP key_enter
@none:  LDA #0
        STA key_new
        LDA key_last
        BEQ @idle
        LDA key_up
        BNE @end
        LDA key_delay
        BEQ @end
        DEC key_delay
        BNE @end
        LDA repeat_next
        BNE :+
        LDA #1
:       STA key_delay
        JMP key_enter
@idle:  STA key_active
        LDA #$81
        STA SYSIER
@end:   RTS
@down:  TXA
        AND #$7F
        TAX
        JMP key_read

; The key key_last enters the buffer as a code.
key_enter:
        JSR key_shifts
        LDA key_last
        AND #$7F
        TAX
        CPX #$40
        BNE :+
        JMP key_caps
:       CPX #$50
        BNE :+
        JMP key_lock
:       LDA key_disable
        BEQ :+
        RTS
:       LDA key_codes-$10,X
        BEQ key_skip
        BPL :+
        JMP key_function
:
        CPX #$60
        BNE :+
        LDA tab_char
        JMP kb_put
:       STA irq_ptr
        LDA key_status          ; CTRL
        AND #$40
        BNE kb_ctrl
        LDA irq_ptr
        CMP #'a'
        BCC kb_sign
        CMP #'z'+1
        BCS kb_sign
        LDA key_status          ; letters: SHIFT, or either lock without SHIFT
        AND #$08
        BNE kb_shifted
        LDA key_status
        AND #$30
        CMP #$30
        BNE kb_capital
        LDA irq_ptr
        JMP kb_put
kb_shifted:
        LDA key_status          ; with bit 7 SHIFT undoes a lock
        BPL kb_capital
        AND #$30
        CMP #$30
        BEQ kb_capital
        LDA irq_ptr
        JMP kb_put
kb_capital:
        LDA irq_ptr
        AND #$DF
        JMP kb_put
kb_sign:
        LDA key_status
        AND #$08
        BNE kb_upper
        LDA key_status
        AND #$20
        BNE kb_plain
kb_upper:
        JSR shifted
        JMP kb_put
kb_plain:
        LDA irq_ptr
kb_put:
        TAY
        LDX #0
        LDA input_source
        CMP #1
        BEQ key_skip
        JMP insert_checked
key_skip:
        RTS
kb_ctrl:
        LDA irq_ptr
        CMP #'@'
        BCC kb_sign
        LDA key_status
        AND #$08
        BEQ :+
        JSR shifted
        STA irq_ptr
:       LDA irq_ptr
        AND #$1F
        JMP kb_put
key_function:
        STA irq_ptr
        LDA key_status
        AND #$08
        BEQ :+
        LDA irq_ptr
        CLC
        ADC #$10
        STA irq_ptr
:       LDA key_status
        AND #$40
        BEQ kb_plain
        LDA irq_ptr
        CLC
        ADC #$20
        JMP kb_put
key_caps:
        LDA key_status
        ORA #$20                ; only one lock
        EOR #$10
        AND #$7F
        TAX
        AND #$08                ; with SHIFT: a lock that SHIFT undoes
        BEQ :+
        TXA
        AND #$EF
        ORA #$80
        TAX
:       STX key_status
        JMP leds
key_lock:
        LDA key_status
        ORA #$10
        EOR #$20
        AND #$7F
        STA key_status
; The LEDs tell the locks: a bit of the latch that is 0 lights one.
leds:   LDA key_status
        LDX #6
        AND #$10
        BEQ :+
        LDX #14
:       STX SYSB
        LDA key_status
        LDX #7
        AND #$20
        BEQ :+
        LDX #15
:       STX SYSB
        RTS
led_on: STX SYSB
        RTS

; The code of the key of code irq_ptr with SHIFT: in A.
shifted:
        LDA irq_ptr
        LDX #shifted_end-shifts-2
:       CMP shifts,X
        BEQ :+
        DEX
        DEX
        BPL :-
        RTS
:       LDA shifts+1,X
        RTS
shifts: .byte "1!2",34,"3#4$5%6&7'8(9)-=^~", $5C, "|_", $60, "[{]};+:*,<.>/?"
shifted_end:

; The codes of the keys 10 to 79: 80 and up are function and cursor keys, 0 is no key.
key_codes:
        .byte "q345", $84, "8", $87, "-^", $8C, 0,0,0,0,0,0
        .byte $80, "wet7i90_", $8E, 0,0,0,0,0,0
        .byte "12dr6uop[", $8F, 0,0,0,0,0,0
        .byte 0, "axfyjk@:", $0D, 0,0,0,0,0,0
        .byte 0, "scghnl;]", $7F, 0,0,0,0,0,0
        .byte $09, "z vbm,./", $8B, 0,0,0,0,0,0
        .byte $1B, $81, $82, $83, $85, $86, $88, $89, $5C, $8D

; Y enters input buffer X; ESCAPE is looked for. C is set if the buffer is full.
insert_checked:
        CPX #0
        BNE @plain
        TYA
        EOR escape_char
        ORA escape_key
        BNE @plain
        LDA break_effect        ; *FX 200,1: the key does nothing
        LSR A
        BCS @off
        LDY #6
        JSR oseven
        BCC @end
        JMP escape_set
@off:   CLC
@end:   RTS
@plain: TYA                     ; event 2: a character enters the buffer
        LDY #2
        JSR oseven
insert: JMP (INSV)

; --- Buffers: 0 keyboard, 1 and 2 RS423, 3 printer, 4 to 7 sound, 8 speech ---

; An index runs from buf_first up to FF and then begins again there.
buf_first:   .byte $E0, $00, $40, $C0, $F0, $F0, $F0, $F0, $C0
buf_base_lo: .byte <($03E0-$E0), <$0A00, <($0900-$40), <($0880-$C0), <($0840-$F0), <($0850-$F0), <($0860-$F0), <($0870-$F0), <($09C0-$C0)
buf_base_hi: .byte >($03E0-$E0), >$0A00, >($0900-$40), >($0880-$C0), >($0840-$F0), >($0850-$F0), >($0860-$F0), >($0870-$F0), >($09C0-$C0)

buf_ptr:
        LDA buf_base_lo,X
        STA irq_ptr
        LDA buf_base_hi,X
        STA irq_ptr+1
        RTS

; A enters buffer X. C is set if it is full.
insv:   PHP
        SEI
        PHA
        LDY buf_in,X
        INY
        BNE :+
        LDY buf_first,X
:       TYA
        CMP buf_out,X
        BEQ @full
        PHA
        LDY buf_in,X
        JSR buf_ptr
        PLA
        STA buf_in,X
        PLA
        PHA
        STA (irq_ptr),Y
        LDA #0
        STA buf_empty,X
        PLA
        PLP
        CLC
        RTS
@full:  TXA
        CMP #2
        BCS :+
        PLA                     ; event 1: an input buffer is full
        PHA
        LDY #1
        JSR oseven
:       PLA
        PLP
        SEC
        RTS

; A byte leaves buffer X: in A and Y; with V set it is only looked at. C is set if it is empty.
remv:   PHP
        SEI
        LDA buf_out,X
        CMP buf_in,X
        BEQ @empty
        TAY
        JSR buf_ptr
        LDA (irq_ptr),Y
        PLP
        PHP
        BVS @looked
        PHA
        INY
        BNE :+
        LDY buf_first,X
:       TYA
        STA buf_out,X
        CMP buf_in,X
        BNE @more
        LDA #$80
        STA buf_empty,X
        CPX #2
        BCC @more
        LDY #0                  ; event 0: an output buffer is empty
        JSR oseven
@more:  PLA
        TAY
@looked:
        PLP
        CLC
        RTS
@empty: PLP
        SEC
        RTS

; V: buffer X is emptied; else X and Y tell its bytes, or its room where C is set.
cnpv:   BVC @count
        PHP
        SEI
        LDA buf_first,X
        STA buf_in,X
        STA buf_out,X
        LDA #$80
        STA buf_empty,X
        PLP
        RTS
@count: PHP
        SEI
        SEC
        LDA buf_in,X
        SBC buf_out,X
        BCS :+
        SEC                     ; it went round
        SBC buf_first,X
:       PLP
        BCC :+
        EOR #$FF                ; the room: the length less one less the bytes
        SEC
        SBC buf_first,X
:       TAX
        LDY #0
        RTS

; --- The converter ---

; The channel that was converted: its value is kept, and the next one begins.
converted:
        LDA #$10
        STA SYSIFR
converted_late:
        LDX adc_now
        BEQ adc_end
        LDA ADCL
        STA adc_low-1,X
        LDA ADCH
        STA adc_high-1,X
        STX adc_last
        LDY #3
        JSR oseven
        LDX adc_now
        DEX
        BNE :+
        LDX adc_most
:
; Channel X begins.
adc_begin:
        CPX #5
        BCC :+
        LDX #4
:       STX adc_now
        LDA adc_kind            ; 8 asks for eight bits
        DEX
        BMI adc_end
        TXA
        LDX adc_kind
        CPX #8
        BEQ :+
        ORA #$08
:       STA ADC0
adc_end:   RTS

; --- The printer, at the user's 6522 ---

print_start:
        LDA printer
        CMP #1
        BNE no_print
        LDA buf_empty+3
        BMI no_print
        LDA #$FF
        STA USRDDRA
        LDA #$82
        STA USRIER
        STA printer_on
print_next:
        LDX #3
        CLV
        JSR remove
        BCS @none
        STA USRA
        LDA USRPCR              ; a strobe on CA2
        AND #$F1
        ORA #$0C
        STA USRPCR
        ORA #$0E
        STA USRPCR
        RTS
@none:  LDA #0
        STA printer_on
        LDA #$02
        STA USRIER
no_print:
        RTS
remove: JMP (REMV)
count_purge:
        JMP (CNPV)

; --- ESCAPE ---

escape_set:
        LDA #$FF
        BNE :+
escape_clear:
        LDA #0
:       STA escape
        BIT tube
        BPL :+
        JSR $0403               ; the second processor hears of it
:       CLC
        RTS
