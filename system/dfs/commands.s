; The * commands.

; Each command: its name, the high and the low byte of its routine less one, and the number of its
; words in *HELP.
.macro command name, routine, words
        .byte name, >(routine-1), <(routine-1), words
.endmacro
table:
        command "ACCESS", cmd_access, 1
        command "BACKUP", cmd_backup, 2
        command "COMPACT", cmd_compact, 3
        command "COPY", cmd_copy, 4
        command "DELETE", cmd_delete, 5
        command "DESTROY", cmd_destroy, 6
        command "DIR", cmd_dir, 7
        command "DRIVE", cmd_drive, 8
        command "ENABLE", cmd_enable, 9
        command "INFO", cmd_info, 6
        command "LIB", cmd_lib, 7
        command "RENAME", cmd_rename, 10
        command "TITLE", cmd_title, 11
        command "WIPE", cmd_wipe, 6
        .byte $FF
table_any:                      ; whatever the filing system
        command "BUILD", cmd_build, 5
        command "DISC", cmd_disc, 9
        command "DISK", cmd_disc, 9
        command "DUMP", cmd_dump, 5
        command "LIST", cmd_list, 5
        command "TYPE", cmd_type, 5
        .byte $FF

help_words:
        .byte 0, "<afsp> (L)", 0, "<from> <to>", 0, "(<drive>)", 0, "<from> <to> <afsp>", 0
        .byte "<fsp>", 0, "<afsp>", 0, "(<dir>)", 0, "<drive>", 0, 0, "<old> <new>", 0
        .byte "<title>", 0

; The command at text + Y in the table from X on: its routine is jumped to, with cy behind the name.
; C is clear if there is none.
look_up:
        STY cy
@command:
        LDY cy
@letter:
        LDA table,X
        BMI @whole
        LDA (text),Y
        CMP #'.'
        BEQ @short
        JSR capital
        CMP table,X
        BNE @other
        INX
        INY
        BNE @letter
@other: LDA table,X
        BMI :+
        INX
        BNE @other
:       CMP #$FF
        BEQ @none
        INX
        INX
        INX
        LDA table,X
        CMP #$FF
        BNE @command
@none:  CLC
        RTS
@whole: CMP #$FF
        BEQ @none
        LDA (text),Y            ; not where the word goes on
        JSR capital
        CMP #'A'
        BCC @found
        CMP #'Z'+1
        BCC @other
        BCS @found
@short: INY
:       LDA table,X
        BMI @found
        INX
        BNE :-
@found: PLA                     ; not back to the caller
        PLA
        LDA table,X
        PHA
        LDA table+1,X
        PHA
@skip:  LDA (text),Y
        CMP #' '
        BNE :+
        INY
        BNE @skip
:       STY cy
        RTS

fsc_command:
        LDY #0
        LDX #0
        JSR @look
        RTS
@look:  JSR look_up
        PLA                     ; no command: back to FSC's caller from the program
        PLA
        LDY #0
        JMP run

; Service call 4.
svc_command:
        TYA
        PHA
        LDX #table_any-table
        JSR @try
        LDX rom                 ; done
        PLA
        TAY
        LDA #0
        RTS
@try:   JSR own
        JSR look_up
        PLA
        PLA
        PLA
        TAY
        LDX rom
        LDA #4
        RTS

; --- Help ---

help:   TYA
        PHA
        JSR print
        .byte 13, "DFS 1", 13, 0
        PLA
        PHA
        TAY
:       LDA (text),Y
        INY
        CMP #' '
        BEQ :-
        DEY
        CMP #13
        BEQ @all
        JSR capital
        CMP #'D'
        BEQ @list
        CMP #'.'
        BNE @end
@list:  LDX #0
        JSR list
        LDX #table_any-table
        JSR list
        JMP @end
@all:   JSR print
        .byte "  DFS", 13, 0
@end:   PLA
        TAY
        LDX rom
        LDA #9
        RTS
list:   JSR space
        JSR space
        LDY #9
:       LDA table,X
        BMI :+
        JSR OSWRCH
        INX
        DEY
        BNE :-
:       JSR space
        DEY
        BPL :-
        TXA
        PHA
        LDA table+2,X
        TAY
        LDX #0
:       DEY
        BMI @words
:       INX
        LDA help_words-1,X
        BNE :-
        BEQ :--
@words: LDA help_words,X
        BEQ :+
        JSR OSWRCH
        INX
        BNE @words
:       JSR OSNEWL
        PLA
        TAX
        INX
        INX
        INX
        LDA table,X
        CMP #$FF
        BNE list
        RTS

; --- Words ---

; The next word has to be there; the text has to end.
a_word: LDY cy
        JSR read_word
        BCS bad_syntax
        RTS
no_more:
        LDY cy
:       LDA (text),Y
        INY
        CMP #' '
        BEQ :-
        CMP #13
        BNE bad_syntax
        RTS
bad_syntax:
        JMP syntax
; A drive, as 1 or :1, in A.
a_drive:
        JSR a_word
drive_of_word:
        LDX #0
        LDA word
        CMP #':'
        BNE :+
        INX
:       LDA word+1,X
        BNE @bad
        LDA word,X
        SEC
        SBC #'0'
        CMP #4
        BCS @bad
        RTS
@bad:   JMP bad_drive
; The next word is a name, perhaps of several files: Y is the entry of the first.
some_files:
        JSR a_word
        JSR parse
        BEQ @bad
        JSR no_more
        JSR get_cat
        JSR find_first
        BCS :+
        JMP not_found
@bad:   JMP bad_name
:       RTS

; --- Directories and drives ---

cmd_disc:
        JMP start
cmd_enable:
        JSR no_more
        LDA #2
        STA enabled
        RTS
cmd_drive:
        JSR a_drive
        STA cur_drive
        JMP no_more
cmd_dir:
        LDX #0
        BEQ directory
cmd_lib:
        LDX #2
; X: the variables of the directory. `:1`, `:1.A` and `A`; nothing is `$`.
directory:
        STX cx
        LDA cur_drive
        STA drive
        LDA #'$'
        STA dir
        LDY cy
        JSR read_word
        BCS @set
        JSR no_more
        LDX #0
        LDA word
        CMP #':'
        BNE @dir
        LDA word+1
        SEC
        SBC #'0'
        CMP #4
        BCS @bad_drive
        STA drive
        LDX #2
        LDA word,X
        BEQ @set
        CMP #'.'
        BNE @bad
        INX
@dir:   LDA word+1,X
        BNE @bad
        LDA word,X
        JSR name_char
        CMP #'*'
        BEQ @bad
        CMP #'#'
        BEQ @bad
        STA dir
@set:   LDX cx
        LDA drive
        STA cur_drive,X
        LDA dir
        STA cur_dir,X
        RTS
@bad_drive:
        JMP bad_drive
@bad:   JSR fail
        .byte 206, "Bad dir", 0

; --- The catalogue is shown ---

; X: how many letters the title has; A: letter X of it.
title_length:
        LDX #12
:       DEX
        BMI :+
        JSR title_char
        CMP #'!'
        BCC :-
:       INX
        RTS
title_char:
        LDA cat0,X
        CPX #8
        BCC :+
        LDA cat1-8,X
:       AND #$7F
        RTS

fsc_cat:
        LDY #0
        LDA cur_drive
        STA drive
        JSR read_word
        BCS :+
        JSR drive_of_word
        STA drive
        JSR no_more
:       JSR get_cat
        JSR title_length
        STX t0
        LDX #0
:       CPX t0
        BEQ :+
        JSR title_char
        JSR OSWRCH
        INX
        BNE :-
:       JSR print
        .byte " (", 0
        LDA cat1+4
        JSR hex
        JSR print
        .byte ")", 13, "Drive ", 0
        LDA drive
        JSR digit
        JSR print
        .byte "             Option ", 0
        LDA cat1+6
        LSR A
        LSR A
        LSR A
        LSR A
        AND #3
        PHA
        JSR digit
        JSR print
        .byte " (", 0
        PLA
        ASL A
        ASL A
        TAX
:       LDA option_names,X
        BEQ :+
        JSR OSWRCH
        INX
        TXA
        AND #3
        BNE :-
:       JSR print
        .byte ")", 13, "Dir. :", 0
        LDX #0
        JSR show_dir
        JSR print
        .byte "           Lib. :", 0
        LDX #2
        JSR show_dir
        JSR OSNEWL
        LDA #0                  ; first the current directory's, then the others'
        STA phase
@phase: LDA #0
        STA last
        STA column
@file:  JSR next_name
        BCC @phase_end
        LDA column
        BNE @gap
        JSR OSNEWL
        JMP @show
@gap:   LDX #8
:       JSR space
        DEX
        BNE :-
@show:  LDA column
        EOR #1
        STA column
        JSR space
        JSR space
        LDY best_at
        JSR show_name
        JMP @file
@phase_end:
        LDA last
        BEQ :+
        JSR OSNEWL
:       INC phase
        LDA phase
        CMP #2
        BNE @phase
        RTS
option_names:
        .byte "off", 0, "LOAD", "RUN", 0, "EXEC"
show_dir:
        LDA cur_drive,X
        JSR digit
        LDA #'.'
        JSR OSWRCH
        LDA cur_dir,X
        JMP OSWRCH
; `A.NAME     L` of entry Y, where the current directory has spaces: in twelve columns.
show_name:
        LDA cat0+7,Y
        AND #$7F
        CMP cur_dir
        BNE :+
        JSR space
        JSR space
        JMP :++
:       LDA cat0+7,Y
        AND #$7F
        JSR OSWRCH
        LDA #'.'
        JSR OSWRCH
:       LDX #7
        STY slot
:       LDA cat0,Y
        AND #$7F
        JSR OSWRCH
        INY
        DEX
        BNE :-
        JSR space
        LDY slot
        LDA cat0+7,Y
        BPL :+
        LDA #'L'
        JMP OSWRCH
:       JMP space

; best_at: of the entries of this phase the first by directory and name behind `last`, which it
; becomes. C is clear if there is none.
next_name:
        LDA #$FF
        STA best
        LDY #0
@next:  CPY count
        BCS @end
        TYA
        ADC #8
        TAY
        STY slot
        LDA cat0+7,Y
        AND #$7F
        LDX #0
        CMP cur_dir
        BEQ :+
        INX
:       CPX phase
        BNE @next
        JSR capital             ; nam: directory and name in capitals
        STA nam
        LDX #1
:       LDA cat0,Y
        AND #$7F
        JSR capital
        STA nam,X
        INY
        INX
        CPX #8
        BNE :-
        LDX #0
:       LDA last,X
        CMP nam,X
        BCC @later
        BNE @no
        INX
        CPX #8
        BNE :-
@no:    LDY slot
        JMP @next
@later: LDX #0
:       LDA nam,X
        CMP best,X
        BCC @better
        BNE @no
        INX
        CPX #8
        BNE :-
        BEQ @no
@better:
        LDX #7
:       LDA nam,X
        STA best,X
        DEX
        BPL :-
        LDY slot
        STY best_at
        JMP @next
@end:   LDA best
        CMP #$FF
        BEQ @none
        LDX #7
:       LDA best,X
        STA last,X
        DEX
        BPL :-
        SEC
        RTS
@none:  CLC
        RTS

cmd_info:
        JSR some_files
:       JSR info_line
        LDY slot
        JSR find_next
        BCS :-
        RTS
; `$.NAME    L  FF1900 FF8023 000123 002` of entry Y.
info_line:
        STY slot
        LDA cat0+7,Y
        AND #$7F
        JSR OSWRCH
        LDA #'.'
        JSR OSWRCH
        LDX #7
:       LDA cat0,Y
        AND #$7F
        JSR OSWRCH
        INY
        DEX
        BNE :-
        JSR space
        JSR space
        LDY slot
        LDA cat0+7,Y
        BPL :+
        LDA #'L'
        BNE :++
:       LDA #' '
:       JSR OSWRCH
        JSR space
        LDA cat1+6,Y
        LSR A
        LSR A
        JSR @high
        LDA cat1+1,Y
        LDX cat1,Y
        JSR @four
        LDA cat1+6,Y
        ROL A
        ROL A
        ROL A
        JSR @high
        LDA cat1+3,Y
        LDX cat1+2,Y
        JSR @four
        JSR space
        LDA cat1+6,Y
        LSR A
        LSR A
        LSR A
        LSR A
        AND #3
        JSR hex
        LDA cat1+5,Y
        LDX cat1+4,Y
        JSR @four
        JSR space
        LDA cat1+6,Y
        AND #3
        JSR digit
        LDA cat1+7,Y
        JSR hex
        JMP OSNEWL
@high:  PHA
        JSR space
        PLA
        JSR high_bits
        JMP hex
@four:  JSR hex
        TXA
        JMP hex

; --- Files of a name ---

cmd_delete:
        JSR a_word
        JSR parse_name
        JSR no_more
        JSR find
        JSR not_locked
        JSR not_open
        JSR message
        LDY slot
        JMP remove

cmd_access:
        JSR a_word
        JSR parse
        BNE :+
        JMP bad_name
:       JSR get_cat
        LDY cy
        LDA #0
        STA t1
@letter:
        LDA (text),Y
        INY
        CMP #' '
        BEQ @letter
        CMP #13
        BEQ @files
        JSR capital
        CMP #'L'
        BNE @bad
        LDA #$80
        STA t1
        BNE @letter
@bad:   JSR fail
        .byte 207, "Bad attribute", 0
@files: JSR find_first
        BCS :+
        JMP not_found
:       LDA t1
        PHA
        JSR not_open
        PLA
        STA t1
        LDA cat0+7,Y
        AND #$7F
        ORA t1
        STA cat0+7,Y
        LDA t1
        PHA
        JSR message
        PLA
        STA t1
        LDY slot
        JSR find_next
        BCS :-
        JMP put_cat

cmd_rename:
        JSR a_word
        JSR parse_name
        JSR find
        JSR not_locked
        JSR not_open
        STY from
        LDA drive
        STA src
        JSR a_word
        JSR parse_name
        JSR no_more
        LDA drive
        CMP src
        BEQ :+
        JMP bad_drive
:       JSR find_first
        BCC :+
        CPY from                ; other letters of the same name
        BEQ :+
        JSR fail
        .byte 196, "Exists", 0
:       JSR name_entry
        LDY from
        LDX #0
:       LDA ent0,X
        STA cat0,Y
        INY
        INX
        CPX #8
        BNE :-
        JMP put_cat

cmd_title:
        LDA cur_drive
        STA drive
        JSR get_cat
        LDY cy
        LDX #11
        LDA #0
:       STA word,X
        DEX
        BPL :-
        SEC
        JSR GSINIT
        LDX #0
@char:  JSR GSREAD
        BCS @end
        CPX #12
        BCS @char
        STA word,X
        INX
        BNE @char
@end:   LDX #11
@put:   LDA word,X
        CPX #8
        BCS :+
        STA cat0,X
        BCC :++
:       STA cat1-8,X
:       DEX
        BPL @put
        JMP put_cat

; C is set if the answer is Y.
yes_no: JSR print
        .byte " : ", 0
        LDA #15                 ; keys of before do not answer
        LDX #1
        JSR flush_keys
        JSR OSRDCH
        BCC :+
        LDA #126
        JSR OSBYTE
        JSR fail
        .byte 17, "Escape", 0
:       JSR capital
        PHA
        CMP #'!'
        BCC :+
        JSR OSWRCH
:       JSR OSNEWL
        PLA
        CMP #'Y'
        BEQ :+
        CLC
:       RTS
flush_keys:
        LDX $0256               ; nor does *EXEC lose its text
        BNE :+
        LDX #1
        JMP OSBYTE
:       RTS

cmd_wipe:
        JSR some_files
@next:  JSR is_locked
        BCS @not
        STY from
        JSR show_whole
        JSR yes_no
        LDY from
        BCC @not
        STY slot
        JSR not_open
        JSR remove
        LDA from
        SEC
        SBC #8
        TAY
@not:   JSR find_next
        BCS @next
        RTS
; `$.NAME   ` of entry Y.
show_whole:
        LDA cat0+7,Y
        AND #$7F
        JSR OSWRCH
        LDA #'.'
        JSR OSWRCH
        LDX #7
:       LDA cat0,Y
        AND #$7F
        JSR OSWRCH
        INY
        DEX
        BNE :-
        RTS

cmd_destroy:
        JSR need_enable
        JSR some_files
@list:  JSR is_locked
        BCS :+
        JSR show_whole
        JSR OSNEWL
:       LDY slot
        JSR find_next
        BCS @list
        JSR print
        .byte 13, "Delete (Y/N)", 0
        JSR yes_no
        BCC @end
        JSR begin_change
        DEC forward
        JSR find_first
@next:  BCC @write
        JSR is_locked
        BCS :+
        JSR not_open
        TYA
        PHA
        JSR take_out
        PLA
        SEC
        SBC #8
        TAY
:       JSR find_next
        JMP @next
@write: JMP end_change
@end:   RTS
need_enable:
        LDA enabled
        BNE :+
        JSR fail
        .byte 189, "Not enabled", 0
:       RTS

; --- Texts ---

; The text at text + Y is opened for reading: its handle in `hand`.
open_text:
        JSR no_text
        TYA
        CLC
        ADC text
        TAX
        LDA #0
        ADC text+1
        TAY
        LDA #$40
        JSR OSFIND
        STA hand
        CMP #0
        BNE :+
        JMP not_found
:       RTS
no_text:
        LDY cy
        LDA (text),Y
        CMP #13
        BNE :+
        JMP syntax
:       RTS
close_text:
        LDY hand
        LDA #0
        JMP OSFIND
; ESCAPE ends a command.
stop:   BIT escape
        BPL :+
        JSR close_text
        LDA #126
        JSR OSBYTE
        JSR fail
        .byte 17, "Escape", 0
:       RTS

cmd_type:
        JSR open_text
@next:  JSR stop
        LDY hand
        JSR OSBGET
        BCS @end
        CMP #10
        BEQ @next
        JSR OSASCI
        JMP @next
@end:   JMP close_text

cmd_list:
        JSR open_text
        LDA #0
        STA line
        STA line+1
        STA column
@next:  JSR stop
        LDY hand
        JSR OSBGET
        BCS @end
        CMP #10
        BEQ @next
        LDX column
        BNE :+
        PHA
        JSR line_number
        PLA
:       LDX #1
        STX column
        CMP #13
        BNE :+
        DEC column
:       JSR OSASCI
        JMP @next
@end:   JMP close_text
; The next number, in decimal digits.
line_number:
        SED
        CLC
        LDA line
        ADC #1
        STA line
        LDA line+1
        ADC #0
        STA line+1
        CLD
        JSR hex
        LDA line
        JSR hex
        JMP space

cmd_dump:
        JSR open_text
        LDA #0
        STA dump_at
        STA dump_at+1
@line:  JSR stop
        LDX #0
@byte:  LDY hand
        JSR OSBGET
        BCS @part
        STA dump,X
        INX
        CPX #8
        BNE @byte
@part:  STX dumped
        CPX #0
        BEQ @end
        LDA dump_at+1
        JSR hex
        LDA dump_at
        JSR hex
        LDX #0
:       JSR space
        CPX dumped
        BCS @none
        LDA dump,X
        JSR hex
        JMP :+
@none:  JSR print
        .byte "**", 0
:       INX
        CPX #8
        BNE :--
        JSR space
        LDX #0
:       LDA dump,X
        CMP #' '
        BCC @dot
        CMP #127
        BCC @put
@dot:   LDA #'.'
@put:   JSR OSWRCH
        INX
        CPX dumped
        BNE :-
        JSR OSNEWL
        LDA dump_at
        CLC
        ADC #8
        STA dump_at
        BCC :+
        INC dump_at+1
:       LDA dumped
        CMP #8
        BEQ @line
@end:   JMP close_text

; Lines from the keyboard, up to ESCAPE, go to a file.
cmd_build:
        JSR no_text
        TYA
        CLC
        ADC text
        TAX
        LDA #0
        ADC text+1
        TAY
        LDA #$80
        JSR OSFIND
        STA hand
        LDA #0
        STA line
        STA line+1
@line:  JSR line_number
        LDX #0
        STX column
@char:  JSR OSRDCH
        BCS @escape
        CMP #127
        BEQ @delete
        CMP #21
        BEQ @all
        CMP #13
        BEQ @store
        LDX column
        CPX #$5F
        BCS @char
        STA scratch,X
        INC column
        JSR OSWRCH
        JMP @char
@delete:
        LDX column
        BEQ @char
        DEC column
        JSR OSWRCH
        JMP @char
@all:   LDX column
        BEQ @char
        DEC column
        LDA #127
        JSR OSWRCH
        JMP @all
@store: JSR OSNEWL
        LDX column
        STA scratch,X
        LDX #0
:       LDA scratch,X
        LDY hand
        JSR OSBPUT
        INX
        CMP #13
        BNE :-
        JMP @line
@escape:
        LDA #126
        JSR OSBYTE
        JSR OSNEWL
        JMP close_text

; --- Copies ---

; room_at and room: the first page of the memory that a command may use, and how many pages it has.
memory: LDA #131
        JSR OSBYTE
        STY room_at
        LDA #132
        JSR OSBYTE
        TYA
        SEC
        SBC room_at
        STA room
        RTS
; As much as fits of `left` sectors, from sector `from` of drive src to sector `into` of dst. Both
; go on.
piece:  LDA left+1
        BNE @room
        LDA left
        CMP room
        BCC @len
@room:  LDA room
@len:   STA chunk
        LDA src
        STA drive
        LDA from
        STA first
        LDA from+1
        STA first+1
        JSR @memory
        JSR read
        LDA dst
        STA drive
        LDA into
        STA first
        LDA into+1
        STA first+1
        JSR @memory
        JSR write
        LDX #0
        LDA from
        JSR @on
        LDX #into-from
        JSR @on
        LDA left
        SEC
        SBC chunk
        STA left
        BCS :+
        DEC left+1
:       RTS
@on:    LDA from,X
        CLC
        ADC chunk
        STA from,X
        BCC :+
        INC from+1,X
:       RTS
@memory:
        LDA #0
        STA adr
        STA len
        STA len+2
        LDA room_at
        STA adr+1
        LDA chunk
        STA len+1
        RTS
; All `left` sectors.
pieces: LDA left
        ORA left+1
        BEQ :+
        JSR piece
        JMP pieces
:       RTS

cmd_backup:
        JSR need_enable
        JSR a_drive
        STA src
        JSR a_drive
        STA dst
        JSR no_more
        JSR memory
        LDA dst
        STA drive
        JSR none_open
        JSR get_cat
        JSR get_total
        LDA total
        PHA
        LDA total+1
        PHA
        LDA src
        STA drive
        JSR get_cat
        JSR get_total
        PLA
        CMP total+1
        BNE @size
        PLA
        CMP total
        BEQ @same
@sizes: JSR fail
        .byte 198, "Other size", 0
@size:  PLA
        JMP @sizes
@same:  LDA src
        CMP dst
        BEQ @end
        LDA total
        STA left
        LDA total+1
        STA left+1
        LDA #0
        STA from
        STA from+1
        STA into
        STA into+1
        JSR pieces
        LDA #$FF
        STA cat_drive
@end:   RTS
; No file of the drive may be open.
none_open:
        LDX #0
:       LDA ch_flags,X
        BPL :+
        LDA ch_drive,X
        CMP drive
        BEQ @open
:       TXA
        CLC
        ADC #$20
        TAX
        CPX #$A0
        BNE :--
        RTS
@open:  JMP is_open

cmd_copy:
        JSR a_drive
        STA src
        JSR a_drive
        STA dst
        JSR a_word
        JSR no_more
        JSR memory
        LDA cur_dir
        STA dir
        LDA src
        STA drive
        JSR parse_in
        BEQ @bad_name
        LDA drive
        STA src
        CMP dst
        BNE :+
        JMP bad_drive
@bad_name:
        JMP bad_name
:       LDX #8                  ; the name is kept: those of the files take its place
:       LDA pat,X
        STA fsp,X
        DEX
        BPL :-
        LDA dir
        STA fsp_dir
        LDA #0
        STA copy_at
@file:  LDX #7
:       LDA fsp,X
        STA pat,X
        DEX
        BPL :-
        LDA fsp_dir
        STA dir
        LDA src
        STA drive
        JSR get_cat
        LDY copy_at
        JSR find_next
        BCS :+
        RTS
:       STY copy_at
        JSR info_line
        LDY copy_at
        LDX #0                  ; its entry
:       LDA cat0,Y
        STA ent0,X
        LDA cat1,Y
        STA ent1,X
        INY
        INX
        CPX #8
        BNE :-
        LDY copy_at
        JSR place_of
        LDA first
        STA copy_sec
        LDA first+1
        STA copy_sec+1
        LDX #6                  ; its own name
:       LDA ent0,X
        AND #$7F
        CMP #' '
        BNE @put
        LDA #0
@put:   STA pat,X
        DEX
        BPL :-
        LDA #0
        STA pat+7
        LDA ent0+7
        AND #$7F
        STA dir
        LDA dst
        STA drive
        JSR get_cat
        JSR find_first
        BCC :+
        JSR not_locked
        JSR not_open
        JMP :++
:       JSR cat_room
:       LDA need
        STA left
        LDA need+1
        STA left+1
        JSR find_gap
        BCC :+
        JMP disc_full
:       LDA first
        STA ent1+7
        STA into
        LDA ent1+6
        AND #$FC
        ORA first+1
        STA ent1+6
        LDA first+1
        STA into+1
        LDA copy_sec
        STA from
        LDA copy_sec+1
        STA from+1
        JSR pieces
        JSR get_cat
        JSR commit
        JMP @file
copy_at = scratch
copy_sec = scratch+1

; *COMPACT: each file goes to the lowest sectors behind those before it. Its old sectors are whole
; until the catalogue has the new ones: where they would be written over, the file goes to the end
; first, and where there is no room it stays.
cmd_compact:
        LDA cur_drive
        STA drive
        LDY cy
        JSR read_word
        BCS :+
        JSR drive_of_word
        STA drive
        JSR no_more
:       LDA drive
        STA src
        STA dst
        JSR none_open
        JSR memory
        JSR get_cat
@again: LDA #0
        STA moved
        LDA #2                  ; low: behind the files so far
        STA low
        LDA #0
        STA low+1
@file:  JSR lowest
        BCC @done
        LDA first                 ; it begins at `low` already?
        CMP low
        BNE @move
        LDA first+1
        CMP low+1
        BEQ @stays
@move:  LDA low                 ; from low + need up to its beginning it is free
        CLC
        ADC need
        STA total
        LDA low+1
        ADC need+1
        STA total+1
        LDA first
        CMP total
        LDA first+1
        SBC total+1
        BCS @down
        JSR end_room
        BCC @stays
        JSR move                ; to the end, and from there down
        LDY slot
        JSR place_of
@down:  LDA low
        STA into
        LDA low+1
        STA into+1
        JSR move
@stays: LDY slot
        JSR place_of
        LDA first
        CLC
        ADC need
        STA low
        LDA first+1
        ADC need+1
        STA low+1
        JMP @file
@done:  LDA moved
        BNE @again
        RTS
low     = scratch+3
; Entry `slot`: the one with bytes on the lowest sectors from `low` on, which are first and need. C
; is clear if there is none.
lowest: LDA #$FF
        STA into
        STA into+1
        LDY #0
@next:  CPY count
        BCS @end
        TYA
        ADC #8
        TAY
        JSR place_of
        LDA need
        ORA need+1
        BEQ @next
        LDA first
        CMP low
        LDA first+1
        SBC low+1
        BCC @next
        LDA first
        CMP into
        LDA first+1
        SBC into+1
        BCS @next
        LDA first
        STA into
        LDA first+1
        STA into+1
        STY slot
        JMP @next
@end:   LDA into+1
        CMP #$FF
        CLC
        BEQ :+
        LDY slot
        JSR place_of
        SEC
:       RTS
; into: the sectors behind the last file, if `need` are there: C is set then.
end_room:
        LDA first
        PHA
        LDA first+1
        PHA
        LDA need
        STA left
        LDA need+1
        STA left+1
        LDA #0
        STA into
        STA into+1
        LDY #0
@next:  CPY count
        BCS @end
        TYA
        ADC #8
        TAY
        JSR place_of
        LDA first
        CLC
        ADC need
        STA first
        LDA first+1
        ADC need+1
        STA first+1
        LDA into
        CMP first
        LDA into+1
        SBC first+1
        BCS @next
        LDA first
        STA into
        LDA first+1
        STA into+1
        JMP @next
@end:   PLA
        STA first+1
        PLA
        STA first
        LDA left
        STA need
        CLC
        ADC into
        STA from
        LDA left+1
        STA need+1
        ADC into+1
        STA from+1
        JSR get_total
        LDA total
        CMP from
        LDA total+1
        SBC from+1
        RTS
; Entry `slot`, whose sectors are first and need, goes to `into`: its bytes before the catalogue.
move:   LDA slot
        STA compact_at
        LDA first
        STA from
        LDA first+1
        STA from+1
        LDA need
        STA left
        LDA need+1
        STA left+1
        LDA into
        PHA
        LDA into+1
        PHA
        JSR pieces
        JSR begin_change
        LDY compact_at
        PLA
        EOR cat1+6,Y
        AND #$03
        PHP
        EOR cat1+6,Y
        STA cat1+6,Y
        PLP
        BEQ @byte
        PLA
        STA cat1+7,Y
        JSR end_change
        JMP @done
@byte:  PLA                     ; one byte changes
        STA cat1+7,Y
        LDA #>cat1
        JSR put_second
@done:  LDA #1
        STA moved
        LDA compact_at
        STA slot
        RTS
compact_at = scratch+5
