; Sound: a queue, an envelope and a chip's register for each channel.

; Four bytes each, one a channel.
snd_on      = $0800     ; 1: a note is played, 2: its release
snd_env     = $0804     ; 16 times the envelope less one, or FF
snd_dur     = $0808     ; twentieths of a second; FF: for ever
snd_five    = $080C
snd_amp     = $0810     ; 0 to 7F
snd_phase   = $0814     ; 0 attack, 1 decay, 2 sustain, 3 release
snd_pitch   = $0818
snd_off     = $081C     ; what the envelope adds
snd_part    = $0820     ; the pitch's section
snd_left    = $0824     ; steps in it
snd_wait    = $0828     ; hundredths to the next step
snd_heard   = $082C     ; the attenuation that the chip has
snd_tone    = $0830     ; the pitch that the chip has
snd_ready   = $0834     ; it may begin
snd_work    = $0838
envelopes   = $08C0
snd_e       = $E0       ; own: a pointer within the tick, saved there

; A byte to the chip.
sound_byte:
        PHP
        SEI
        PHA
        LDA #$FF
        STA SYSDDRA
        PLA
        STA SYSA
        LDA #$00                ; bit 0 of the latch is the chip's write line
        STA SYSB
        NOP
        NOP
        NOP
        NOP
        NOP
        NOP
        LDA #$08
        STA SYSB
        PLP
        RTS

sound_init:
        LDX #3
:       LDA #0
        STA snd_on,X
        STA snd_amp,X
        LDA #15
        STA snd_heard,X
        LDA snd_volume,X
        ORA #15
        JSR sound_byte
        DEX
        BPL :-
        RTS
; The chip's registers by channel: 0 is the noise.
snd_volume: .byte $F0,$D0,$B0,$90
snd_freq:   .byte $E0,$C0,$A0,$80

sound_tick:
        LDA snd_e
        PHA
        LDA snd_e+1
        PHA
        LDX #3
@sync:  JSR sound_ready
        DEX
        BPL @sync
        LDX #3
@each:  LDA snd_on,X
        BEQ @next
        JSR sound_note
@next:  LDA snd_on,X
        CMP #1
        BEQ @heard
        LDA snd_ready,X
        BEQ @heard
        JSR sound_start
@heard: JSR sound_send
        DEX
        BPL @each
        PLA
        STA snd_e+1
        PLA
        STA snd_e
        RTS

; May the next note of channel X begin? One with sync S waits until S others wait for the same.
sound_ready:
        LDA #0
        STA snd_ready,X
        JSR @head
        BCS @no
        AND #$60
        BEQ @yes
        STA snd_work
        STX snd_work+1
        LSR A
        LSR A
        LSR A
        LSR A
        LSR A
        STA snd_work+2
        LDX #3
@count: LDA snd_on,X
        CMP #1
        BEQ @other
        JSR @head
        BCS @other
        AND #$60
        CMP snd_work
        BNE @other
        DEC snd_work+2
@other: DEX
        BPL @count
        LDX snd_work+1
        LDA snd_work+2
        BPL @no
@yes:   INC snd_ready,X
@no:    RTS
; The first byte of the queue; C is set if there is none, or if a note is played.
@head:  LDA snd_on,X
        CMP #1
        BEQ @none
        STX snd_work+3
        TXA
        CLC
        ADC #4
        TAX
        BIT vbit
        JSR remove
        LDX snd_work+3
        RTS
@none:  SEC
        RTS

; A byte of channel X's queue.
sound_take:
        STX snd_work+3
        TXA
        CLC
        ADC #4
        TAX
        CLV
        JSR remove
        LDX snd_work+3
        RTS

; The next note of channel X begins.
sound_start:
        JSR sound_take
        STA snd_work
        JSR sound_take
        STA snd_work+1
        JSR sound_take
        STA snd_dur,X
        LDA #5
        STA snd_five,X
        LDA #1
        STA snd_on,X
        LDA snd_work
        BMI @hold               ; the sound before it goes on
        LDA snd_work+1
        STA snd_pitch,X
        LDA #0
        STA snd_off,X
        STA snd_part,X
        STA snd_left,X
        STA snd_phase,X
        LDA snd_work+1
        EOR #$FF
        STA snd_tone,X          ; another than the one to come
        LDA snd_work
        AND #$1F
        CMP #16
        BCS @env
        EOR #$0F                ; an amplitude
        ASL A
        ASL A
        ASL A
        STA snd_amp,X
        LDA #$FF
        STA snd_env,X
        RTS
@env:   ASL A
        ASL A
        ASL A
        ASL A
        STA snd_env,X
        LDA #1
        STA snd_wait,X
        LDA #0
        STA snd_amp,X
@hold:  RTS

env_ptr:
        CLC
        LDA snd_env,X
        ADC #<envelopes
        STA snd_e
        LDA #>envelopes
        ADC #0
        STA snd_e+1
        RTS

; A hundredth of a second of channel X's note.
sound_note:
        LDA snd_on,X
        CMP #1
        BNE @step
        LDA snd_dur,X
        BEQ @over
        CMP #$FF
        BEQ @step
        DEC snd_five,X
        BNE @step
        LDA #5
        STA snd_five,X
        DEC snd_dur,X
        BNE @step
@over:  LDA snd_env,X
        CMP #$FF
        BEQ @silent
        LDA #2                  ; the release
        STA snd_on,X
        LDA #3
        STA snd_phase,X
        BNE @step
@silent:
        LDA #0
        STA snd_on,X
        STA snd_amp,X
        RTS
@step:  LDA snd_env,X
        CMP #$FF
        BEQ @no
        DEC snd_wait,X
        BNE @no
        JSR env_ptr
        LDY #0
        LDA (snd_e),Y
        AND #$7F
        BNE :+
        LDA #1
:       STA snd_wait,X
        JSR @pitch
        LDY snd_phase,X         ; the amplitude: a step, and where it ends
        TYA
        CLC
        ADC #7
        TAY
        LDA (snd_e),Y
        STA snd_work
        LDA #0
        CPY #10
        BCS @to
        CPY #9
        BNE :+
        LDA snd_work            ; sustain ends nowhere
        BPL @up
        BMI @zero
:       INY
        INY
        INY
        INY
        LDA (snd_e),Y
@to:    STA snd_work+1
        LDA snd_work
        BMI @down
        CLC
        ADC snd_amp,X
        BMI @there
        CMP snd_work+1
        BCS @there
        STA snd_amp,X
        RTS
@down:  CLC
        ADC snd_amp,X
        BMI @there
        CMP snd_work+1
        BEQ @there
        BCC @there
        STA snd_amp,X
@no:    RTS
@zero:  LDA #0
        STA snd_work+1
        LDA snd_work
        CLC
        ADC snd_amp,X
        BPL @keep
        LDA #0
        BEQ @keep
@up:    CLC
        ADC snd_amp,X
        BPL @keep
        LDA #$7E
@keep:  STA snd_amp,X
        RTS
@there: LDA snd_work            ; a step of 0 reaches nothing
        BEQ @no
        LDA snd_work+1
        STA snd_amp,X
        LDA snd_phase,X
        CMP #2
        BCS @end
        INC snd_phase,X
        RTS
@end:   LDA snd_on,X
        CMP #2
        BNE @no
        LDA #0
        STA snd_on,X
        STA snd_amp,X
        RTS
; A step of the pitch: three sections, and again from the first unless bit 7 of the first byte is set.
@pitch: LDA snd_part,X
        CMP #3
        BEQ @again
        CLC
        ADC #4
        TAY
        LDA snd_left,X
        CMP (snd_e),Y
        BCS @part
        INC snd_left,X
        DEY
        DEY
        DEY
        LDA (snd_e),Y
        CLC
        ADC snd_off,X
        STA snd_off,X
        RTS
@part:  LDA #0
        STA snd_left,X
        INC snd_part,X
        LDA snd_part,X
        CMP #3
        BNE @pitch
        RTS
@again: LDY #0
        LDA (snd_e),Y
        BMI @no
        TYA
        STA snd_part,X
        STA snd_off,X
        LDY #4                  ; no steps at all: nothing to do again
        LDA (snd_e),Y
        INY
        ORA (snd_e),Y
        INY
        ORA (snd_e),Y
        BNE @pitch
        LDA #3
        STA snd_part,X
        RTS

; The chip gets what has changed of channel X.
sound_send:
        LDA snd_on,X
        BEQ @volume
        CLC
        LDA snd_pitch,X
        ADC snd_off,X
        CMP snd_tone,X
        BEQ @volume
        STA snd_tone,X
        CPX #0
        BNE @tone
        AND #$07
        ORA #$E0
        JSR sound_byte
        JMP @volume
@tone:  LDY #0                  ; octaves of 48 steps
@octave:
        CMP #48
        BCC :+
        SBC #48
        INY
        BNE @octave
:       STY snd_work
        TAY
        LDA tone_high,Y
        STA snd_work+1
        LDA tone_low,Y
        LDY snd_work
        BEQ @put
@half:  LSR snd_work+1
        ROR A
        DEY
        BNE @half
        ADC #0
        BCC @put
        INC snd_work+1
@put:   STA snd_work
        AND #$0F
        ORA snd_freq,X
        JSR sound_byte
        LDA snd_work
        LSR snd_work+1
        ROR A
        LSR snd_work+1
        ROR A
        LSR A
        LSR A
        JSR sound_byte
@volume:
        LDA snd_amp,X
        LSR A
        LSR A
        LSR A
        EOR #$0F
        BIT sound_off
        BPL :+
        LDA #15
:       CMP snd_heard,X
        BEQ @end
        STA snd_heard,X
        ORA snd_volume,X
        JSR sound_byte
@end:   RTS

; 125,000 by the frequency of the lowest 48 pitches; pitch 89 has 440 a second.
tone_low:
        .byte $FF,$F4,$E6,$D8,$C9,$BC,$AE,$A0,$93,$86,$79,$6C,$60,$53,$47,$3B
        .byte $2F,$24,$18,$0D,$01,$F6,$EC,$E1,$D6,$CC,$C2,$B7,$AE,$A4,$9A,$90
        .byte $87,$7E,$75,$6C,$63,$5A,$51,$49,$40,$38,$30,$28,$20,$18,$11,$09
tone_high:
        .byte $03,$03,$03,$03,$03,$03,$03,$03,$03,$03,$03,$03,$03,$03,$03,$03
        .byte $03,$03,$03,$03,$03,$02,$02,$02,$02,$02,$02,$02,$02,$02,$02,$02
        .byte $02,$02,$02,$02,$02,$02,$02,$02,$02,$02,$02,$02,$02,$02,$02,$02

; C is set if the queue of the channel in sound_block has no room for a note.
sound_room:
        LDA sound_block
        AND #$03
        CLC
        ADC #4
        TAX
room_of:
        SEC
        CLV
        JSR count_purge
        CPX #3
        BCC @full
        CLC
        RTS
@full:  SEC
        RTS

; OSWORD 7: SOUND.
osword_7:
        LDY #0
        LDA (byte_x),Y
        AND #$03
        CLC
        ADC #4
        TAX
        LDA (byte_x),Y
        AND #$10
        BEQ @wait               ; flush: what is queued and played ends
        BIT vbit
        JSR count_purge
        TXA
        SEC
        SBC #4
        TAX
        LDA #0
        STA snd_on,X
        STA snd_amp,X
        INX
        INX
        INX
        INX
@wait:  TXA
        PHA
        JSR room_of
        PLA
        TAX
        BCC @room
        BIT escape
        BMI @end
        LDA byte_x              ; interrupts may use OSWORD too
        PHA
        LDA byte_y
        PHA
        PHP
        CLI
        NOP
        PLP
        PLA
        STA byte_y
        PLA
        STA byte_x
        JMP @wait
@room:  LDY #2
        LDA (byte_x),Y
        CLC
        ADC #15                 ; -15 to 16 in five bits
        AND #$1F
        STA os_temp
        DEY
        LDA (byte_x),Y
        AND #$03                ; sync
        ASL A
        ASL A
        ASL A
        ASL A
        ASL A
        ORA os_temp
        STA os_temp
        LDA (byte_x),Y
        AND #$10                ; hold
        ASL A
        ASL A
        ASL A
        ORA os_temp
        PHP
        SEI
        JSR @put
        LDY #4
        LDA (byte_x),Y
        JSR @put
        LDY #6
        LDA (byte_x),Y
        JSR @put
        PLP
@end:   RTS
@put:   JMP insert

; OSWORD 8: ENVELOPE. The number, and thirteen bytes.
osword_8:
        LDY #0
        LDA (byte_x),Y
        SEC
        SBC #1
        CMP #16
        BCS @end
        ASL A
        ASL A
        ASL A
        ASL A
        TAX
        INY
:       LDA (byte_x),Y
        STA envelopes,X
        INX
        INY
        CPY #14
        BNE :-
@end:   RTS
