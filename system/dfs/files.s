; The calls of a filing system: OSFILE, OSARGS, OSBGET, OSBPUT, OSGBPB, OSFIND, FSC.

; --- OSFILE ---

osfile: JSR own
        STX blk
        STY blk+1
        STA ca
        TXA
        PHA
        TYA
        PHA
        LDX ca
        INX
        CPX #8
        LDA ca
        BCS @end
        LDA file_low,X
        STA t0
        LDA file_high,X
        STA t1
        JSR @go
@end:   STA ca
        PLA
        TAY
        PLA
        TAX
        LDA ca
        RTS
@go:    JMP (t0)
file_low:
        .lobytes file_load, file_save, file_info, file_info, file_info, file_info, file_read
        .lobytes file_delete
file_high:
        .hibytes file_load, file_save, file_info, file_info, file_info, file_info, file_read
        .hibytes file_delete

file_load:
        JSR name_of_block
        JSR find
        STY slot
        LDY #2                  ; the address that is given
        LDX #0
:       LDA (blk),Y
        STA number,X
        INY
        INX
        CPX #4
        BNE :-
        LDA (blk),Y
        BEQ :+
        LDY slot                ; or the file's own
        JSR own_address
:       LDY slot
        JSR to_block
        JSR message
        LDY slot
load_entry:                     ; entry Y to `number`
        JSR length_of
        JSR place_of
        LDX #2
:       LDA size,X
        STA len,X
        DEX
        BPL :-
        JSR load_data
        LDA #1
        RTS
; number: the load address of entry Y.
own_address:
        LDA cat1,Y
        STA number
        LDA cat1+1,Y
        STA number+1
        LDA cat1+6,Y
        LSR A
        LSR A
        JSR high_bits
        STA number+2
        STX number+3
        RTS
; A and X: the upper half of an address whose bits 16 and 17 are the low ones of A.
high_bits:
        LDX #0
        AND #3
        CMP #3
        BNE :+
        LDA #$FF
        TAX
:       RTS

; The block gets what the catalogue has of entry Y.
to_block:
        STY slot
        LDA cat1+6,Y
        STA t0
        TYA
        TAX
        LDY #2
:       LDA cat1,X              ; load address
        STA (blk),Y
        INX
        INY
        CPY #4
        BNE :-
        TXA
        PHA
        LDA t0
        LSR A
        LSR A
        JSR high_bits
        STA (blk),Y
        INY
        TXA
        STA (blk),Y
        PLA
        TAX
        INY
:       LDA cat1,X              ; where it is entered
        STA (blk),Y
        INX
        INY
        CPY #8
        BNE :-
        TXA
        PHA
        LDA t0
        ROL A
        ROL A
        ROL A
        JSR high_bits
        STA (blk),Y
        INY
        TXA
        STA (blk),Y
        PLA
        TAX
        INY
:       LDA cat1,X              ; the length
        STA (blk),Y
        INX
        INY
        CPY #12
        BNE :-
        LDA t0
        LSR A
        LSR A
        LSR A
        LSR A
        AND #3
        STA (blk),Y
        INY
        LDA #0
:       STA (blk),Y
        INY
        CPY #18
        BNE :-
        LDX slot                ; bit 3: locked
        LDA cat0+7,X
        AND #$80
        LSR A
        LSR A
        LSR A
        LSR A
        LDY #14
        STA (blk),Y
        RTS

file_read:
        JSR name_of_block
        JSR get_cat
        JSR find_first
        BCC no_file
        JSR to_block
        LDA #1
        RTS
no_file:
        LDA #0
        RTS

file_delete:
        JSR name_of_block
        JSR get_cat
        JSR find_first
        BCC no_file
        JSR to_block
        LDY slot
        JSR not_locked
        JSR not_open
        LDY slot
        JSR message
        LDY slot
        JSR remove
        LDA #1
        RTS

; 1: addresses and attributes; 2, 3, 4: each of them.
file_info:
        JSR name_of_block
        JSR get_cat
        JSR find_first
        BCC no_file
        JSR not_open
        LDA ca
        CMP #4
        BEQ @attribute
        LDY slot
        JSR not_locked
        LDA ca
        CMP #3
        BEQ @exec
        LDY #2
        JSR @pair
        ASL A
        ASL A
        LDY slot
        EOR cat1+6,Y
        AND #$0C
        EOR cat1+6,Y
        STA cat1+6,Y
        LDA number
        STA cat1,Y
        LDA number+1
        STA cat1+1,Y
        LDA ca
        CMP #2
        BEQ @done
@exec:  LDY #6
        JSR @pair
        LSR A
        ROR A
        ROR A
        LDY slot
        EOR cat1+6,Y
        AND #$C0
        EOR cat1+6,Y
        STA cat1+6,Y
        LDA number
        STA cat1+2,Y
        LDA number+1
        STA cat1+3,Y
        LDA ca
        CMP #3
        BEQ @done
@attribute:
        LDY #14
        LDA (blk),Y
        AND #$0A                ; locked against writing or deleting
        BEQ :+
        LDA #$80
:       LDY slot
        EOR cat0+7,Y
        AND #$80
        EOR cat0+7,Y
        STA cat0+7,Y
@done:  JSR put_cat
        LDA #1
        RTS
@pair:  LDA (blk),Y
        STA number
        INY
        LDA (blk),Y
        STA number+1
        INY
        LDA (blk),Y
        AND #3
        RTS

file_save:
        JSR name_of_block
        JSR get_cat
        SEC                     ; the length
        LDX #0
        LDY #10
        LDA #3
        STA t0
:       LDA (blk),Y
        STA number,X
        TYA
        CLC
        ADC #4
        TAY
        LDA (blk),Y
        STA size,X
        TYA
        SEC
        SBC #3
        TAY
        INX
        DEC t0
        BNE :-
        SEC
        LDX #0
        LDA #3
        STA t0
:       LDA size,X
        SBC number,X
        STA size,X
        INX
        DEC t0
        BNE :-
        LDY #13
        LDA (blk),Y
        STA number+3
        LDA size+2
        CMP #4
        BCC :+
        JMP disc_full
:       JSR find_first
        BCC @new
        JSR not_locked
        JSR not_open
        JMP @room
@new:   JSR cat_room
@room:  JSR need_size
        JSR find_gap            ; the old file stays until the new one is there
        BCC :+
        JMP disc_full
:       JSR name_entry
        JSR place_entry
        LDY #2
        JSR @pair
        STX ent1
        STA ent1+1
        LDA (blk),Y
        AND #3
        ASL A
        ASL A
        ORA ent1+6
        STA ent1+6
        LDY #6
        JSR @pair
        STX ent1+2
        STA ent1+3
        LDA (blk),Y
        AND #3
        LSR A
        ROR A
        ROR A
        ORA ent1+6
        STA ent1+6
        LDX #2
:       LDA size,X
        STA len,X
        DEX
        BPL :-
        JSR save_data
        JSR get_cat
        JSR commit
        LDY slot
        JSR to_block
        JSR message
        LDA #1
        RTS
@pair:  LDA (blk),Y
        TAX
        INY
        LDA (blk),Y
        INY
        RTS
disc_full:
        JSR fail
        .byte 198, "Disc full", 0
; A file more has to have room in the catalogue.
cat_room:
        LDA count
        CMP #248
        BCC :+
        JSR fail
        .byte 190, "Cat full", 0
:       RTS
; The new entry's place: first, and the length in size.
place_entry:
        LDA size
        STA ent1+4
        LDA size+1
        STA ent1+5
        LDA size+2
        ASL A
        ASL A
        ASL A
        ASL A
        ORA first+1
        STA ent1+6
        LDA first
        STA ent1+7
        RTS
; The new entry comes into the catalogue in place of one of its name, and the catalogue is written.
commit: JSR begin_change
        DEC has_new
        JSR find_first
        BCC @new
        STY from
        JSR take_out
        JSR put_in
        LDA from
        CMP slot
        ROR forward             ; those between move up if it comes behind
        LDA forward
        EOR #$80
        STA forward
        JMP @write
@new:   JSR put_in
@write: LDA slot
        PHA
        JSR end_change
        PLA
        STA slot
        RTS
; Entry Y goes, and the catalogue is written.
remove: TYA
        PHA
        JSR begin_change
        DEC forward
        PLA
        TAY
        JSR take_out
        JMP end_change

; len bytes from sector first to the address in `number`, and back.
load_data:
        JSR memory_at_number
        JSR read
        JMP tube_end
save_data:
        JSR memory_at_number
        JSR write
        JMP tube_end

; With *OPT 1 the line of *INFO is printed.
message:
        LDA messages
        BEQ :+
        LDY slot
        JMP info_line
:       RTS

; --- Channels ---

; C is set if entry `slot` of the catalogue is open: X is its channel.
find_open:
        LDX #0
@next:  LDA ch_flags,X
        BPL @no
        LDA ch_drive,X
        CMP drive
        BNE @no
        TXA
        PHA
        LDY slot
        LDA #8
        STA t0
@char:  LDA cat0,Y
        EOR ch_name,X
        AND #$7F
        BNE @other
        INY
        INX
        DEC t0
        BNE @char
        PLA
        TAX
        SEC
        RTS
@other: PLA
        TAX
@no:    TXA
        CLC
        ADC #$20
        TAX
        CPX #$A0
        BNE @next
        CLC
        RTS
not_open:
        JSR find_open
        BCC :+
is_open:
        JSR fail
        .byte 194, "Open", 0
:       LDY slot
        RTS

; X: the channel of handle Y.
channel:
        TYA
        SEC
        SBC #$11
        CMP #5
        BCS @bad
        ASL A
        ASL A
        ASL A
        ASL A
        ASL A
        TAX
        LDA ch_flags,X
        BPL @bad
        RTS
@bad:   JSR fail
        .byte 222, "Channel", 0

; B0 to BF are the caller's while a buffer moves.
keep_page:
        STX chan
        LDX #15
:       LDA $B0,X
        STA keep,X
        DEX
        BPL :-
        LDX chan
        LDA drive
        STA saved_drive
        LDA ch_drive,X
        STA drive
        RTS
saved_drive = ws+$BB
back_page:
        LDX #15
:       LDA keep,X
        STA $B0,X
        DEX
        BPL :-
        LDA saved_drive
        STA drive
        LDX chan
        RTS

; The buffer of channel X gets the sector of its pointer.
buffer: LDA ch_ptr+1,X
        CMP ch_buf,X
        BNE :+
        LDA ch_ptr+2,X
        CMP ch_buf+1,X
        BNE :+
        RTS
:       JSR keep_page
        JSR flush_buffer
        LDA #$FF
        STA ch_buf,X
        STA ch_buf+1,X
        LDA #0                  ; does it have bytes of the file?
        CMP ch_ext,X
        LDA ch_ptr+1,X
        SBC ch_ext+1,X
        LDA ch_ptr+2,X
        SBC ch_ext+2,X
        BCS @empty
        LDA ch_ptr+1,X
        CLC
        ADC ch_sec,X
        STA first
        LDA ch_ptr+2,X
        ADC ch_sec+1,X
        STA first+1
        JSR buffer_at
        JSR read
        JMP @have
@empty: JSR buffer_at
        LDA #0
        TAY
:       STA (adr),Y
        INY
        BNE :-
@have:  LDX chan
        LDA ch_ptr+1,X
        STA ch_buf,X
        LDA ch_ptr+2,X
        STA ch_buf+1,X
        JMP back_page
buffer_at:
        LDA ch_page,X
        STA adr+1
        LDA #0
        STA adr
        STA len
        STA len+2
        LDA #1
        STA len+1
        RTS
; The buffer of channel `chan` is written, if it has to be.
flush_buffer:
        LDX chan
        LDA ch_flags,X
        AND #$20
        BEQ @end
        LDA ch_buf,X
        CLC
        ADC ch_sec,X
        STA first
        LDA ch_buf+1,X
        ADC ch_sec+1,X
        STA first+1
        JSR buffer_at
        JSR write
        LDX chan
        LDA ch_flags,X
        AND #$DF
        STA ch_flags,X
@end:   RTS

; Channel X: buffer and length go to the disc.
update: JSR keep_page
        JSR flush_buffer
        LDA ch_flags,X
        AND #$08
        BEQ @end
        JSR entry_of
        LDX chan
        LDA ch_ext,X
        STA size
        LDA ch_ext+1,X
        STA size+1
        LDA ch_ext+2,X
        STA size+2
        JSR set_length
        LDX chan
        LDA ch_flags,X
        AND #$F7
        STA ch_flags,X
@end:   JMP back_page
; Y: the entry of channel `chan`, whose catalogue is read.
entry_of:
        JSR get_cat
        LDY #0
@next:  CPY count
        BCS @gone
        TYA
        ADC #8
        TAY
        STY slot
        JSR find_open
        BCC :+
        CPX chan
        BEQ @end
:       LDY slot
        JMP @next
@end:   LDY slot
        RTS
@gone:  JSR fail
        .byte 200, "Disc changed", 0
; The length of entry Y becomes `size`, and the channel has these sectors.
set_length:
        LDA size
        STA cat1+4,Y
        LDA size+1
        STA cat1+5,Y
        LDA size+2
        ASL A
        ASL A
        ASL A
        ASL A
        EOR cat1+6,Y
        AND #$30
        EOR cat1+6,Y
        STA cat1+6,Y
        JSR need_size
        LDX chan
        LDA need
        STA ch_cap,X
        LDA need+1
        STA ch_cap+1,X
        JMP put_cat

; All open channels.
flush_all:
        LDX #0
:       LDA ch_flags,X
        BPL :+
        JSR update
:       TXA
        CLC
        ADC #$20
        TAX
        CPX #$A0
        BNE :--
        RTS

; --- OSFIND ---

osfind: JSR own
        CMP #0
        BEQ close
        STX text
        STY text+1
        STA ca
        TXA
        PHA
        TYA
        PHA
        LDY #0
        JSR read_word
        BCC :+
        JMP bad_name
:       JSR parse_name
        JSR get_cat
        JSR find_first
        LDA ca
        BPL @input
        AND #$40
        BNE @input
        BCC @new                ; for writing: a new file
        JSR not_locked
        JSR not_open
        JMP @create
@new:   JSR cat_room
@create:
        JSR free_channel
        JSR create
        LDY slot
        JMP @open
@input: LDA #0
        BCC @out
        JSR find_open
        BCC :+
        LDA ca                  ; several may read a file
        ORA ch_flags,X
        AND ca
        BMI @busy
        LDA ch_flags,X
        AND #$40
        BEQ :+
@busy:  JMP is_open
:       JSR free_channel
        LDY slot
@open:  JSR fill
@out:   STA ca
        PLA
        TAY
        PLA
        TAX
        LDA ca
        RTS

close:  TXA
        PHA
        TYA
        PHA
        BEQ @all
        JSR channel
        JSR close_one
        JMP @end
@all:   JSR close_all
@end:   PLA
        TAY
        PLA
        TAX
        LDA #0
        RTS
; All files, and before them those of *EXEC and *SPOOL.
close_all:
        LDA #119
        JSR OSBYTE
        LDX #0
:       LDA ch_flags,X
        BPL :+
        JSR close_one
:       TXA
        CLC
        ADC #$20
        TAX
        CPX #$A0
        BNE :--
        RTS
close_one:
        JSR update
        LDA #0
        STA ch_flags,X
        RTS
; X: a channel that is free.
free_channel:
        LDX #0
:       LDA ch_flags,X
        BPL @found
        TXA
        CLC
        ADC #$20
        TAX
        CPX #$A0
        BNE :-
        JSR fail
        .byte 192, "Too many open", 0
@found: STX chan
        RTS
; A file without bytes comes into the catalogue, with room for up to 64 sectors.
create: LDA #64
        STA cx
@try:   LDA #0
        STA size
        STA size+2
        STA need+1
        LDA cx
        STA size+1
        STA need
        JSR find_gap
        BCC @found
        LSR cx
        BNE @try
        JMP disc_full
@found: JSR name_entry
        JSR place_entry
        LDA #0
        STA ent1
        STA ent1+1
        STA ent1+2
        STA ent1+3
        JMP commit
; Channel `chan` is that of entry Y: A is its handle.
fill:   STY slot
        JSR place_of
        JSR length_of
        LDX chan
        LDA first
        STA ch_sec,X
        LDA first+1
        STA ch_sec+1,X
        LDA need
        STA ch_cap,X
        LDA need+1
        STA ch_cap+1,X
        LDA size
        STA ch_ext,X
        LDA size+1
        STA ch_ext+1,X
        LDA size+2
        STA ch_ext+2,X
        LDA drive
        STA ch_drive,X
        LDA #0
        STA ch_ptr,X
        STA ch_ptr+1,X
        STA ch_ptr+2,X
        LDA #$FF
        STA ch_buf,X
        STA ch_buf+1,X
        LDY slot
        LDA #8
        STA t0
:       LDA cat0,Y
        AND #$7F
        STA ch_name,X
        INY
        INX
        DEC t0
        BNE :-
        LDX chan
        LDA #$80
        BIT ca
        BPL @flags              ; for reading alone
        LDY slot
        LDA cat0+7,Y
        ASL A
        LDA #$80
        BCS @flags              ; locked
        LDA #$C0
        BVS @flags
        LDA #0                  ; a new file: no bytes yet
        STA ch_ext,X
        STA ch_ext+1,X
        STA ch_ext+2,X
        LDA #$C8
@flags: STA ch_flags,X
        TXA
        LSR A
        LSR A
        LSR A
        LSR A
        LSR A
        CLC
        ADC #$11
        RTS

; --- OSBGET and OSBPUT ---

osbget: JSR own
        TXA
        PHA
        TYA
        PHA
        JSR channel
        JSR at_end
        BCS @end
        JSR buffer
        LDA t0
        PHA
        LDA t1
        PHA
        LDA ch_page,X
        STA t1
        LDA #0
        STA t0
        LDY ch_ptr,X
        LDA (t0),Y
        STA ca
        PLA
        STA t1
        PLA
        STA t0
        JSR next
        CLC
        LDA ca
@out:   STA ca
        PLA
        TAY
        PLA
        TAX
        LDA ca
        RTS
@end:   LDA ch_flags,X
        AND #$10
        BNE @twice
        LDA ch_flags,X
        ORA #$10
        STA ch_flags,X
        SEC
        LDA #$FE
        BNE @out
@twice: JSR fail
        .byte 223, "EOF", 0
; C is set if the pointer of channel X is at its end.
at_end: LDA ch_ptr,X
        CMP ch_ext,X
        LDA ch_ptr+1,X
        SBC ch_ext+1,X
        LDA ch_ptr+2,X
        SBC ch_ext+2,X
        RTS
next:   INC ch_ptr,X
        BNE :+
        INC ch_ptr+1,X
        BNE :+
        INC ch_ptr+2,X
:       RTS

osbput: JSR own
        STA byte_out
        PHA
        TXA
        PHA
        TYA
        PHA
        JSR channel
        JSR put_byte
        PLA
        TAY
        PLA
        TAX
        PLA
        RTS
byte_out = ws+$BC
; The byte goes to channel X.
put_byte:
        LDA ch_flags,X
        AND #$40
        BNE :+
        JSR fail
        .byte 193, "Read only", 0
:       LDA ch_ptr+1,X
        CMP ch_cap,X
        LDA ch_ptr+2,X
        SBC ch_cap+1,X
        BCC :+
        JSR extend
:       JSR buffer
        LDA t0
        PHA
        LDA t1
        PHA
        LDA ch_page,X
        STA t1
        LDA #0
        STA t0
        LDY ch_ptr,X
        LDA byte_out
        STA (t0),Y
        PLA
        STA t1
        PLA
        STA t0
        LDA ch_flags,X
        AND #$EF
        ORA #$20
        STA ch_flags,X
        JSR at_end
        PHP
        JSR next
        PLP
        BCC :+
        LDA ch_ptr,X
        STA ch_ext,X
        LDA ch_ptr+1,X
        STA ch_ext+1,X
        LDA ch_ptr+2,X
        STA ch_ext+2,X
        LDA ch_flags,X
        ORA #$08
        STA ch_flags,X
:       RTS
; Channel X gets up to 64 sectors more behind those that it has.
extend: JSR keep_page
        JSR entry_of
        STY opened
        LDA #64
        STA cx
@try:   LDX chan
        LDA ch_sec,X
        STA first
        LDA ch_sec+1,X
        STA first+1
        LDA ch_cap,X
        CLC
        ADC cx
        STA need
        LDA ch_cap+1,X
        ADC #0
        STA need+1
        JSR is_free
        BCS @free
        LSR cx
        BNE @try
        JSR fail
        .byte 191, "Can't extend", 0
@free:  LDA #0
        STA size
        LDA need
        STA size+1
        LDA need+1
        STA size+2
        LDY opened
        JSR set_length
        LDX chan
        LDA ch_flags,X
        ORA #$08
        STA ch_flags,X
        JMP back_page

; --- OSARGS ---

osargs: JSR own
        CPY #0
        BNE @file
        CMP #0
        BEQ @which
        CMP #1
        BEQ @tail
        CMP #$FF
        BNE @end
        STX cx
        JSR flush_all
        LDX cx
        LDY #0
@end:   RTS
@which: LDA #4
        RTS
@tail:  LDA tail
        STA $00,X
        LDA tail+1
        STA $01,X
        LDA #$FF
        STA $02,X
        STA $03,X
        LDA #1
        RTS
@file:  PHA
        STA ca
        STX cx
        TYA
        PHA
        JSR channel
        STX chan
        LDY cx
        LDA ca
        BEQ @pointer
        CMP #1
        BEQ @set
        CMP #2
        BEQ @extent
        CMP #$FF
        BNE @done
        JSR update
        JMP @done
@pointer:
        LDA ch_ptr,X
        STA $0000,Y
        LDA ch_ptr+1,X
        STA $0001,Y
        LDA ch_ptr+2,X
        STA $0002,Y
        LDA #0
        STA $0003,Y
        BEQ @done
@extent:
        LDA ch_ext,X
        STA $0000,Y
        LDA ch_ext+1,X
        STA $0001,Y
        LDA ch_ext+2,X
        STA $0002,Y
        LDA #0
        STA $0003,Y
        BEQ @done
@set:   LDA $0000,Y
        STA number
        LDA $0001,Y
        STA number+1
        LDA $0002,Y
        STA number+2
        LDA cx
        PHA
        JSR set_pointer
        PLA
        STA cx
@done:  PLA
        TAY
        LDX cx
        PLA
        RTS
; The pointer of channel X becomes `number`: a file for writing gets zeros up to there.
set_pointer:
        LDA ch_flags,X
        AND #$EF
        STA ch_flags,X
        LDA ch_ext,X
        CMP number
        LDA ch_ext+1,X
        SBC number+1
        LDA ch_ext+2,X
        SBC number+2
        BCS @inside
        LDA ch_ext,X
        STA ch_ptr,X
        LDA ch_ext+1,X
        STA ch_ptr+1,X
        LDA ch_ext+2,X
        STA ch_ptr+2,X
@zero:  LDA #0
        STA byte_out
        JSR put_byte
        LDA ch_ptr,X
        CMP number
        BNE @zero
        LDA ch_ptr+1,X
        CMP number+1
        BNE @zero
        LDA ch_ptr+2,X
        CMP number+2
        BNE @zero
        RTS
@inside:
        LDA number
        STA ch_ptr,X
        LDA number+1
        STA ch_ptr+1,X
        LDA number+2
        STA ch_ptr+2,X
        RTS

; --- OSGBPB ---

osgbpb: JSR own
        STX blk
        STY blk+1
        STA gb_a
        PHA
        TXA
        PHA
        TYA
        PHA
        LDA gb_a
        BEQ @nothing
        CMP #9
        BCS @nothing
        JSR @do
@end:   PLA
        TAY
        PLA
        TAX
        PLA
        RTS
@nothing:
        CLC
        BCC @end
@do:    LDY #1
        LDX #0
:       LDA (blk),Y
        STA number,X
        INY
        INX
        CPX #4
        BNE :-
        LDA number
        STA adr
        LDA number+1
        STA adr+1
        LDY #5
        LDX #0
:       LDA (blk),Y
        STA gb_left,X
        INY
        INX
        CPX #4
        BNE :-
        LDA gb_a
        CMP #5
        BCC @bytes
        JMP gb_names
@bytes: LDY #0
        LDA (blk),Y
        TAY
        JSR channel
        STX chan
        JSR gb_memory
        LDX chan
        LDA gb_a
        LSR A
        BCC @loop               ; 2 and 4: from where it is
        LDY #9
        LDA (blk),Y
        STA number
        INY
        LDA (blk),Y
        STA number+1
        INY
        LDA (blk),Y
        STA number+2
        JSR set_pointer
@loop:  LDA gb_left
        ORA gb_left+1
        ORA gb_left+2
        BEQ @done
        LDX chan
        LDY #0
        LDA gb_a
        CMP #3
        BCS @get
        LDA (adr),Y
        BIT via_mem
        BPL :+
        LDA R3
:       STA byte_out
        JSR put_byte
        JMP @moved
@get:   JSR at_end
        BCS @done
        JSR buffer
        LDA ch_page,X
        STA t1
        LDA #0
        STA t0
        LDY ch_ptr,X
        LDA (t0),Y
        JSR gb_store
        JSR next
@moved: INC adr
        BNE :+
        INC adr+1
:       LDA gb_left
        BNE @low
        LDA gb_left+1
        BNE :+
        DEC gb_left+2
:       DEC gb_left+1
@low:   DEC gb_left
        JMP @loop
@done:  JSR tube_end
        LDX chan
        LDY #9
        LDA ch_ptr,X
        STA (blk),Y
        INY
        LDA ch_ptr+1,X
        STA (blk),Y
        INY
        LDA ch_ptr+2,X
        STA (blk),Y
        INY
        LDA #0
        STA (blk),Y
gb_back:
        LDY #1
        LDA adr
        STA (blk),Y
        INY
        LDA adr+1
        STA (blk),Y
        LDY #5
        LDX #0
:       LDA gb_left,X
        STA (blk),Y
        INY
        INX
        CPX #4
        BNE :-
        LDA gb_left
        ORA gb_left+1
        ORA gb_left+2
        CMP #1
        RTS

; The block's memory: a transfer of single bytes begins if it is the second processor's.
gb_memory:
        JSR is_tube
        BCC :+
        JSR tube_claim
        DEC via_mem
        LDA gb_a
        CMP #3
        LDA #0                  ; 1 and 2 are from memory
        ROL A
        JMP tube_move
:       RTS
; A goes to memory at adr.
gb_store:
        BIT via_mem
        BMI :+
        LDY #0
        STA (adr),Y
        RTS
:       STA R3
        RTS

; 5 the title, 6 directory, 7 library, 8 the names of a directory.
gb_names:
        JSR gb_memory
        LDA gb_a
        JSR @names
        JMP tube_end
@names: CMP #6
        BEQ @current
        BCC @title
        CMP #8
        BEQ @files
        LDA lib_drive
        LDX lib_dir
        JMP @pair
@current:
        LDA cur_drive
        LDX cur_dir
@pair:  PHA
        LDA #1
        JSR @put
        PLA
        ORA #'0'
        JSR @put
        LDA #1
        JSR @put
        TXA
        JSR @put
        CLC
        RTS
@title: LDA cur_drive
        STA drive
        JSR get_cat
        JSR title_length
        TXA
        JSR @put
        STX t0
        LDX #0
:       CPX t0
        BEQ :+
        JSR title_char
        JSR @put
        INX
        BNE :-
:       LDA cat1+6
        LSR A
        LSR A
        LSR A
        LSR A
        AND #3
@put:   JSR gb_store
        INC adr
        BNE :+
        INC adr+1
:       CLC
        RTS
@files: LDA cur_drive
        STA drive
        JSR get_cat
        LDY #0                  ; the cycle
        LDA cat1+4
        STA (blk),Y
        LDY #9
        LDA (blk),Y             ; the first that is wanted: counted in the catalogue
        ASL A
        ASL A
        ASL A
        TAX
@next:  CPX count
        BCS @none
        LDA gb_left
        ORA gb_left+1
        BEQ @none
        TXA
        CLC
        ADC #8
        TAX
        LDA cat0+7,X
        AND #$7F
        CMP cur_dir
        BNE @next
        LDA #7
        JSR @put
        STX slot
        LDA #7
        STA t0
:       LDA cat0,X
        AND #$7F
        JSR @put
        INX
        DEC t0
        BNE :-
        LDX slot
        LDA gb_left
        BNE :+
        DEC gb_left+1
:       DEC gb_left
        JMP @next
@none:  TXA
        LSR A
        LSR A
        LSR A
        LDY #9
        STA (blk),Y
        JMP gb_back

; --- FSC ---

osfsc:  JSR own
        CMP #9
        BCS @no
        STX text
        STY text+1
        STX cx
        STY cy
        TAX
        STX ca
        LDA fsc_high,X
        PHA
        LDA fsc_low,X
        PHA
        LDX cx
@no:    RTS
fsc_low:
        .lobytes fsc_opt-1, fsc_eof-1, fsc_run-1, fsc_command-1, fsc_run-1, fsc_cat-1
        .lobytes fsc_leave-1, fsc_handles-1, fsc_coming-1
fsc_high:
        .hibytes fsc_opt-1, fsc_eof-1, fsc_run-1, fsc_command-1, fsc_run-1, fsc_cat-1
        .hibytes fsc_leave-1, fsc_handles-1, fsc_coming-1

fsc_opt:
        CPX #0
        BEQ @messages0
        CPX #1
        BEQ @messages
        CPX #4
        BNE @bad
        CPY #4
        BCS @bad
        LDA cur_drive
        STA drive
        TYA
        PHA
        JSR get_cat
        PLA
        ASL A
        ASL A
        ASL A
        ASL A
        EOR cat1+6
        AND #$30
        EOR cat1+6
        STA cat1+6
        JMP put_cat
@messages0:
        LDY #0
@messages:
        STY messages
        RTS
@bad:   JSR fail
        .byte 203, "Bad option", 0
fsc_eof:
        TYA
        PHA
        TXA
        TAY
        JSR channel
        JSR at_end
        LDX #0
        BCC :+
        DEX
:       PLA
        TAY
        RTS
fsc_leave:
        JMP close_all
fsc_handles:
        LDX #$11
        LDY #$15
        RTS
fsc_coming:
        LDA enabled
        BEQ :+
        DEC enabled
:       RTS

; A program: its file in the current directory, or in the library.
fsc_run:
        LDY #0
run:    JSR read_word
        BCS @bad
        JSR tail_at
        JSR parse_name
        JSR get_cat
        JSR find_first
        BCS @found
        LDA lib_drive
        STA drive
        LDA lib_dir
        STA dir
        JSR parse_in
        JSR get_cat
        JSR find_first
        BCS @found
        LDA ca
        CMP #3
        BEQ @bad
        JMP not_found
@bad:   JSR fail
        .byte 254, "Bad command", 0
@found: LDA cat1+2,Y            ; where it is entered
        STA run_at
        LDA cat1+3,Y
        STA run_at+1
        LDA cat1+6,Y
        ROL A
        ROL A
        ROL A
        JSR high_bits
        STA run_at+2
        STX run_at+3
        JSR own_address
        LDY slot
        JSR message
        LDY slot
        JSR load_entry
        LDX #3
:       LDA run_at,X
        STA number,X
        DEX
        BPL :-
        JSR is_tube
        BCC :+
        JSR tube_claim
        LDA #4                  ; it is entered there
        JMP tube_move
:       LDA number
        STA adr
        LDA number+1
        STA adr+1
        LDA #1
        JMP (adr)
run_at = ws+$F0                 ; four bytes
; tail: the text at text + Y, behind spaces.
tail_at:
        LDA (text),Y
        CMP #' '
        BNE :+
        INY
        BNE tail_at
:       TYA
        CLC
        ADC text
        STA tail
        LDA #0
        ADC text+1
        STA tail+1
        RTS
