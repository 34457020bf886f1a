; The host's side of the Tube, as Acorn's Application Note 004 describes it: this code is copied to
; 0400 to 06FF and to 30 to 8F at a reset. Page 7 has texts and blocks.
HOST = 1
.include "tube.inc"
t_blk   = $10           ; the block of OSFILE
t_args  = $12           ; the block of OSARGS, OSGBPB and OSWORD 0: up to 16 bytes
t_ptr   = $22
t_owner = $24           ; who may transfer, 0: nobody
t_flag  = $25
t_to    = $26           ; an address of the second processor: four bytes
t_from  = $2A
t_count = $2C
t_text  = $0700
t_block = $0780         ; of OSWORD: 128 bytes
EVNTV   = $0220
BRKV    = $0202
brk_rom = $024A
ROMSEL  = $FE30

.segment "HOST"
        JMP t_language          ; 0400
        JMP t_escape            ; 0403

; 0406: A is C0 to FF to claim the Tube for a number, 80 to BF to release it; 0 to 7 is a transfer to
; or from the address of four bytes at X and Y.
t_entry:
        CMP #$80
        BCC t_transfer
        CMP #$C0
        BCS t_claim
        ORA #$40
        CMP t_owner
        BNE t_end
t_release:
        PHP
        SEI
        JSR t_quiet
        LDA #5
        JSR t_r4
        LDA t_owner
        JSR t_r4
        LDA #0
        STA t_owner
        PLP
t_end:  RTS
; C is set if it may be claimed.
t_claim:
        CMP t_owner
        BEQ :+
        PHA
        LDA t_owner
        CMP #1
        PLA
        BCS @no
        STA t_owner
        SEC
:       RTS
@no:    CLC
        RTS
; The last byte of a transfer is taken, and then register 3 interrupts no more. A byte that belongs to
; no transfer is not waited for.
t_quiet:
        PHA
        LDA #0
        STA t_count
:       BIT R3S
        BVS :+
        INC t_count
        BNE :-
:       LDA #$18
        STA R1S
        PLA
        RTS
t_r4:   BIT R4S
        BVC t_r4
        STA R4
        RTS

; Interrupts are off meanwhile: the second processor takes no byte of register 1 now.
t_transfer:
        STX t_ptr
        STY t_ptr+1
        PHP
        SEI
        JSR t_quiet
        TAX
        JSR t_r4
        LDA t_owner
        JSR t_r4
        LDY #3                  ; the address: its highest byte is the first
:       LDA (t_ptr),Y
        JSR t_r4
        DEY
        BPL :-
        TXA
        EOR #$02
        CMP #$02
        BCS :+
        LDA #$90                ; 2 and 3: pairs of bytes
        STA R1S
:       TXA
        LSR A
        BCS :+
        LDA R3                  ; to this side: it is to be empty
        LDA R3
:       JSR t_r4                ; now it begins
:       BIT R4S
        BVC :-
        CPX #4
        BCC @interrupts
        BEQ t_start
        BCS @first
@interrupts:
        LDA #$88
        STA R1S
@first: TXA
        LSR A
        BCS :++
:       BIT R3S                 ; the first byte is there
        BPL :-
:       PLP
        RTS

; The program whose address was sent is started.
t_start:
        JSR t_release
        LDA #$80
t_begin:
        LDX #$FF
        TXS
        CLD
        CLI
        JMP t_answer

; A language: the ROM that is selected goes over, if A is 1.
t_language:
        CMP #1
        BEQ :+
        LDA #$7F                ; there is none
        BNE t_begin
:       CLI
        LDX #3                  ; to 8000, or to the address after the 0 of its (C) text
:       LDA t_default,X
        STA t_to,X
        DEX
        BPL :-
        LDA $8006
        AND #$20
        BEQ @to
        LDX $8007
:       INX
        LDA $8000,X
        BNE :-
        LDY #0
:       INX
        LDA $8000,X
        STA t_to,Y
        INY
        CPY #4
        BNE :-
@to:    LDA #$FF
        JSR t_claim
        BCC @to
        LDA #$80
        STA t_from+1
        LDY #0
        STY t_from
@page:  SEI
        LDA #7
        JSR @transfer
        LDY #0
:       BIT R3S
        BVC :-
        LDA (t_from),Y
        STA R3
        INY
        BNE :-
        CLI
        INC t_to+1
        INC t_from+1
        LDA t_from+1
        CMP #$C0
        BNE @page
        SEC
        LDA t_to+1
        SBC #$40
        STA t_to+1
        LDA #4
@transfer:
        LDX #<t_to
        LDY #>t_to
        JMP t_transfer
t_default:
        .byte $00, $80, $00, $00

; --- Calls of the second processor ---

t_7f:   LDA #$7F
t_answer:
        JSR t_out
t_loop: BIT R1S
        BPL :+
t_wrch: LDA R1
        JSR OSWRCH
        JMP t_loop
:       BIT R2S
        BPL t_loop
        BIT R1S                 ; what was printed before the call
        BMI t_wrch
        LDA R2
        LSR A
        BCS t_loop
        CMP #t_high-t_low
        BCS t_loop
        TAX
        LDA t_high,X
        PHA
        LDA t_low,X
        PHA
        RTS
t_low:  .lobytes t_rdch-1, t_cli-1, t_byte-1, t_byte_high-1, t_word-1, t_line-1
        .lobytes t_osargs-1, t_bget-1, t_bput-1, t_find-1, t_file-1, t_gbpb-1
t_high: .hibytes t_rdch-1, t_cli-1, t_byte-1, t_byte_high-1, t_word-1, t_line-1
        .hibytes t_osargs-1, t_bget-1, t_bput-1, t_find-1, t_file-1, t_gbpb-1

t_in:   BIT R2S
        BPL t_in
        LDA R2
        RTS
t_out:  BIT R2S
        BVC t_out
        STA R2
        RTS
; A text up to its 0D: its address is in X and Y.
t_text_in:
        LDY #0
:       JSR t_in
        STA t_text,Y
        INY
        CMP #13
        BNE :-
        LDX #<t_text
        LDY #>t_text
        RTS
; X bytes of the block: the last comes first.
t_args_in:
        JSR t_in
        STA t_args-1,X
        DEX
        BNE t_args_in
        RTS
t_args_out:
        LDA t_args-1,X
        JSR t_out
        DEX
        BNE t_args_out
        RTS

t_rdch: JSR OSRDCH
; C and A go over.
t_c_a:  ROR t_flag
t_flag_a:
        PHA
        LDA t_flag
        JSR t_out
        PLA
        JMP t_answer
t_cli:  JSR t_text_in
        JSR OSCLI
        JMP t_7f
t_byte: JSR t_in
        TAX
        JSR t_in
        JSR OSBYTE
        TXA
        JMP t_answer
t_byte_high:
        JSR t_in
        TAX
        JSR t_in
        TAY
        JSR t_in
        CMP #$9D                ; OSBPUT, without an answer
        BEQ @put
        JSR OSBYTE
        ROR t_flag
        LDA t_flag
        JSR t_out
        TYA
        JSR t_out
        TXA
        JMP t_answer
@put:   JSR OSBYTE
        JMP t_loop
t_word: JSR t_in
        STA t_flag
        JSR t_in
        TAX
        BEQ :++
:       JSR t_in
        STA t_block-1,X
        DEX
        BNE :-
:       JSR t_in
        PHA
        LDX #<t_block
        LDY #>t_block
        LDA t_flag
        JSR OSWORD
        PLA
        TAX
        BEQ @end
:       LDA t_block-1,X
        JSR t_out
        DEX
        BNE :-
@end:   JMP t_loop
t_line: LDX #5
        JSR t_args_in
        LDA #<t_text
        STA t_args
        LDA #>t_text
        STA t_args+1
        LDA #0
        LDX #<t_args
        LDY #>t_args
        JSR OSWORD
        LDA #$FF
        BCS @answer
        LDA #$7F
        JSR t_out
        LDY #0
:       LDA t_text,Y
        JSR t_out
        INY
        CMP #13
        BNE :-
        JMP t_loop
@answer:
        JMP t_answer
t_osargs:
        JSR t_in
        TAY
        LDX #4
        JSR t_args_in
        JSR t_in
        LDX #t_args
        JSR OSARGS
        LDX #4
t_a_args:
        JSR t_out
        JSR t_args_out
        JMP t_loop
t_bget: JSR t_in
        TAY
        JSR OSBGET
        JMP t_c_a
t_bput: JSR t_in
        TAY
        JSR t_in
        JSR OSBPUT
        JMP t_7f
t_find: JSR t_in
        PHA
        BEQ @close
        JSR t_text_in
        PLA
        JSR OSFIND
        JMP t_answer
@close: JSR t_in
        TAY
        PLA
        JSR OSFIND
        JMP t_7f
t_file: LDX #16
        JSR t_args_in
        JSR t_text_in
        STX t_blk
        STY t_blk+1
        JSR t_in
        LDX #<t_blk
        LDY #>t_blk
        JSR OSFILE
        LDX #16
        BNE t_a_args
t_gbpb: LDX #13
        JSR t_args_in
        JSR t_in
        LDX #<t_args
        LDY #>t_args
        JSR OSGBPB
        ROR t_flag
        PHA
        LDX #13
        JSR t_args_out
        PLA
        JMP t_flag_a

; --- What the host says by itself ---

.segment "HOSTZP"

; The state of ESCAPE goes over.
t_escape:
        PHA
        LDA escape
        SEC
        ROR A
        JSR t_r1
        PLA
        RTS
t_event:
        PHA
        LDA #0
        JSR t_r1
        TYA
        JSR t_r1
        TXA
        JSR t_r1
        PLA
t_r1:   BIT R1S
        BVC t_r1
        STA R1
        RTS
; An error. Interrupts are off, since the second processor takes no byte of register 1 now.
t_brk:  SEI
        LDX brk_rom             ; the text may be in a paged ROM
        STX rom
        STX ROMSEL
        LDA #$FF
        JSR t_r4
:       BIT R4S
        BVC :-
        LDA #0
        TAY
        JSR t_out
        LDA (error),Y           ; the number, and then the text
:       JSR t_out
        INY
        LDA (error),Y
        BNE :-
        JSR t_out
        LDX #$FF
        TXS
        CLI
        JMP t_loop
.segment "CODE"

; Service call FF: the code goes to 0400.
svc_tube:
        LDY #0
:       LDA __HOST_LOAD__,Y
        STA $0400,Y
        LDA __HOST_LOAD__+$100,Y
        STA $0500,Y
        LDA __HOST_LOAD__+$200,Y
        STA $0600,Y
        INY
        BNE :-
        LDX #<__HOSTZP_SIZE__
:       LDA __HOSTZP_LOAD__-1,X
        STA <(__HOSTZP_RUN__-1),X
        DEX
        BNE :-
        STY t_owner
        LDA #<t_brk
        STA BRKV
        LDA #>t_brk
        STA BRKV+1
        LDA #<t_event
        STA EVNTV
        LDA #>t_event
        STA EVNTV+1
        LDA #$19                ; only registers 1 and 4 interrupt the second processor
        STA R1S
        LDA #$86
        STA R1S
        LDA #0
        RTS
; Service call FE: what the second processor prints first, up to 0.
svc_first_line:
        BIT R1S
        BPL svc_first_line
        LDA R1
        BEQ :+
        JSR OSWRCH
        JMP svc_first_line
:       LDX rom
        LDA #$FE
        RTS
.import __HOST_LOAD__, __HOST_SIZE__, __HOSTZP_LOAD__, __HOSTZP_RUN__, __HOSTZP_SIZE__
.assert __HOST_SIZE__ <= $300, lderror, "the host's code has three pages"
