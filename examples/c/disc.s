; Start-up code, files and console of C programs that are *RUN from a disc, by calls of the operating system. Such a
; program comes back to its caller with RTS. An error of the system ends it, unless it takes BRKV; an
; error while a file is opened is ENOENT.

        .export         _exit, __STARTUP__ : absolute = 1
        .export         _open, _close, _read, _write, _lseek, __sysremove, __osmaperrno
        .export         _clrscr, _gotoxy, gotoxy, _gotox, _gotoy, _wherex, _wherey, screensize
        .export         _cputc, _cputcxy, _cgetc, _kbhit
        .export         _textcolor, _bgcolor, _bordercolor, _revers
        .export         _chline, _chlinexy, _cvline, _cvlinexy, _cclear, _cclearxy, _clock
        .constructor    initmainargs, 24
        .import         zerobss, initlib, donelib, callmain, __argc, __argv
        .import         popa, popax, popeax, addysp, __directerrno
        .include        "zeropage.inc"
        .include        "errno.inc"
        .include        "fcntl.inc"

BRKV    := $0202
OSFIND  := $FFCE
OSBPUT  := $FFD4
OSBGET  := $FFD7
OSARGS  := $FFDA
OSFILE  := $FFDD
OSRDCH  := $FFE0
OSASCI  := $FFE3
OSNEWL  := $FFE7
OSWRCH  := $FFEE
OSWORD  := $FFF1
OSBYTE  := $FFF4
WORDS   = 16                            ; the most arguments, the program's name among them

        .zeropage
block:  .res    5                       ; of OSARGS, and of OSWORD 5

        .bss
stack:  .res    1
kept:   .res    1
text:   .res    256                     ; the command's text, of which the arguments are parts
path:   .res    256                     ; a file's name
words:  .res    2*WORDS+2
file:   .res    18                      ; of OSFILE

        .segment        "STARTUP"
        tsx
        stx     stack
        lda     #132
        jsr     OSBYTE
        stx     sp
        sty     sp+1
        lda     stack
        pha                             ; (zerobss clears it)
        jsr     zerobss
        pla
        sta     stack
        jsr     initlib
        jsr     callmain
_exit:  pha
        jsr     donelib
        pla
        tax                             ; the status becomes the user flag
        lda     #1
        jsr     OSBYTE
        ldx     stack
        txs
        rts

        .segment        "ONCE"
; argc and argv: the words of the command's text, which is in the host's memory. The first is the empty text.
initmainargs:
        lda     #1
        ldx     #block
        ldy     #0
        jsr     OSARGS
        ldx     #0
fetch:  txa
        pha
        lda     #5
        ldx     #<block
        ldy     #>block
        jsr     OSWORD
        pla
        tax
        inc     block
        bne     :+
        inc     block+1
:       lda     block+4
        sta     text,x
        inx
        beq     all
        cmp     #13
        bne     fetch
all:    lda     #0
        sta     text-1,x
        lda     #<empty
        sta     words
        lda     #>empty
        sta     words+1
        ldx     #0
        ldy     #2
space:  lda     text,x
        beq     ended
        cmp     #' '
        bne     word
        inx
        bne     space
word:   txa
        clc
        adc     #<text
        sta     words,y
        lda     #>text
        adc     #0
        sta     words+1,y
        iny
        iny
more:   inx
        lda     text,x
        beq     ended
        cmp     #' '
        bne     more
        lda     #0
        sta     text,x
        inx
        cpy     #2*WORDS
        bne     space
ended:  tya
        lsr     a
        sta     __argc
        lda     #<words
        sta     __argv
        lda     #>words
        sta     __argv+1
        rts

        .rodata
empty:  .byte   0

        .code
; The name at A and X, with 0D at its end: its address is in X and Y.
name:   sta     ptr1
        stx     ptr1+1
        ldy     #0
:       lda     (ptr1),y
        sta     path,y
        beq     :+
        iny
        bne     :-
:       lda     #13
        sta     path,y
        ldx     #<path
        ldy     #>path
        rts

; int open (const char* name, int flags, ...)
_open:  cpy     #4
        beq     :+
        tya                             ; the mode is not used
        sec
        sbc     #4
        tay
        jsr     addysp
:       jsr     popax
        sta     tmp1
        jsr     popax
        jsr     name
        lda     tmp1
        and     #O_TRUNC
        bne     new
        lda     #$40
        ldx     tmp1
        cpx     #O_RDONLY
        beq     find
        lda     #$C0
        ldx     #<path
        jsr     osfind
        bne     opened
        lda     tmp1
        and     #O_CREAT
        beq     none
new:    lda     #$80
find:   ldx     #<path
        ldy     #>path
        jsr     osfind
        beq     none
opened: lda     tmp1
        and     #O_APPEND
        beq     :+
        ldx     #block
        lda     #2                      ; its length becomes its pointer
        jsr     OSARGS
        lda     #1
        jsr     OSARGS
:       tya
        ldx     #0
        rts
none:   lda     #ENOENT
        jmp     __directerrno

; OSFIND, with the file in Y. An error of the system gives 0 too.
osfind: sta     tmp2
        lda     BRKV
        pha
        lda     BRKV+1
        pha
        lda     #<error
        sta     BRKV
        lda     #>error
        sta     BRKV+1
        stx     tmp3
        tsx
        stx     kept
        ldx     tmp3
        lda     tmp2
        jsr     OSFIND
found:  tay
        pla
        sta     BRKV+1
        pla
        sta     BRKV
        tya
        rts
error:  ldx     kept
        txs
        lda     #0
        beq     found

; int close (int file)
_close: cmp     #3
        bcc     :+
        tay
        lda     #0
        jsr     OSFIND
:       lda     #0
        tax
        rts

; int read (int file, void* buffer, unsigned count): from the keyboard a line at most
_read:  jsr     parameters
        ldx     tmp1
        beq     get
        lda     #127                    ; at its end OSBGET would be an error
        jsr     OSBYTE
        txa
        bne     told
get:    jsr     left
        beq     told
        ldy     tmp1
        beq     key
        jsr     OSBGET
        bcs     told
        jsr     put
        bne     get
key:    jsr     OSRDCH
        bcs     told
        jsr     OSASCI
        cmp     #13
        bne     :+
        lda     #10
        jsr     put
        jmp     told
:       jsr     put
        bne     get

; int write (int file, const void* buffer, unsigned count)
_write: jsr     parameters
out:    jsr     left
        beq     told
        ldy     #0
        lda     (ptr1),y
        ldy     tmp1
        cpy     #3
        bcc     :+
        jsr     OSBPUT
        jmp     next
:       cmp     #10
        bne     :+
        lda     #13
:       jsr     OSASCI
next:   jsr     on
        bne     out
told:   lda     ptr2
        ldx     ptr2+1
        rts
; ptr1 the buffer, ptr2 how much is done, ptr3 how much is left, tmp1 the file.
parameters:
        sta     ptr3
        stx     ptr3+1
        jsr     popax
        sta     ptr1
        stx     ptr1+1
        jsr     popax
        sta     tmp1
        lda     #0
        sta     ptr2
        sta     ptr2+1
        rts
left:   lda     ptr3
        ora     ptr3+1
        rts
put:    ldy     #0
        sta     (ptr1),y
on:     inc     ptr1
        bne     :+
        inc     ptr1+1
:       lda     ptr3
        bne     :+
        dec     ptr3+1
:       dec     ptr3
        inc     ptr2
        bne     :+
        inc     ptr2+1
:       lda     #1                      ; never 0
        rts

; off_t lseek (int file, off_t offset, int whence): from the start (2), from the pointer (0) or the end (1)
_lseek: sta     tmp2
        jsr     popeax
        sta     ptr1
        stx     ptr1+1
        lda     sreg
        sta     ptr2
        jsr     popax
        tay
        lda     #0
        sta     block
        sta     block+1
        sta     block+2
        sta     block+3
        ldx     #block
        lda     tmp2
        cmp     #2
        beq     :+
        asl     a                       ; 0 its pointer, 2 its length
        jsr     OSARGS
:       clc
        lda     block
        adc     ptr1
        sta     block
        lda     block+1
        adc     ptr1+1
        sta     block+1
        lda     block+2
        adc     ptr2
        sta     block+2
        ldx     #block
        lda     #1
        jsr     OSARGS
        lda     block+2
        sta     sreg
        lda     #0
        sta     sreg+1
        ldx     block+1
        lda     block
        rts

; unsigned char _sysremove (const char* name): 0, or what is wrong
__sysremove:
        jsr     name
        stx     file
        sty     file+1
        lda     #6
        ldx     #<file
        ldy     #>file
        jsr     OSFILE
        tay
        beq     :+
        lda     #0
        tax
        rts
:       lda     #ENOENT
; Its numbers are C's own.
__osmaperrno:
        ldx     #0
        rts

; --- conio ---

_clrscr:
        lda     #12
        jmp     OSWRCH
; void gotoxy (unsigned char x, unsigned char y)
gotoxy: jsr     popa
_gotoxy:
        pha
        jsr     popa
        tax
        pla
        tay
        jmp     at
_wherex:
        jsr     where
        txa
        ldx     #0
        rts
_wherey:
        jsr     where
        tya
        ldx     #0
        rts
where:  lda     #134
        jmp     OSBYTE
_cputcxy:
        pha
        jsr     gotoxy
        pla
_cputc: cmp     #10
        bne     :+
        jmp     OSWRCH
:       jmp     OSASCI
_cgetc: jsr     OSRDCH
        ldx     #0
        rts
; The bytes that wait in the keyboard's buffer.
_kbhit: lda     #128
        ldx     #255
        ldy     #255
        jsr     OSBYTE
        txa
        beq     :+
        lda     #1
:       ldx     #0
        rts
; There is no border.
_bordercolor:
        lda     #0
        tax
        rts
; unsigned char textcolor (unsigned char color), and the like: each gives what was there before.
_textcolor:
        ldx     #0
        beq     colour
_bgcolor:
        ldx     #1
        bne     colour
_revers:
        ldx     #2
colour: ldy     colours,x
        sta     colours,x
        tya
        pha
        ldx     #0                      ; if they are reversed, the text has the second
        lda     colours+2
        beq     :+
        inx
:       lda     colours,x
        jsr     vdu17
        txa
        eor     #1
        tax
        lda     colours,x
        ora     #128
        jsr     vdu17
        pla
        ldx     #0
        rts
vdu17:  pha
        lda     #17
        jsr     OSWRCH
        pla
        jmp     OSWRCH
        .data
colours:
        .byte   7, 0, 0
        .code
_gotox: pha
        jsr     where
        pla
        tax
        bpl     at
_gotoy: pha
        jsr     where
        pla
        tay
; The cursor goes to X and Y.
at:     lda     #31
        jsr     OSWRCH
        txa
        jsr     OSWRCH
        tya
        jmp     OSWRCH
; The columns and lines of the text window, in X and Y.
screensize:
        lda     #160
        ldx     #8                      ; left and bottom
        jsr     OSBYTE
        stx     tmp1
        sty     tmp2
        lda     #160
        ldx     #10                     ; right and top
        jsr     OSBYTE
        inx
        txa
        sec
        sbc     tmp1
        tax
        sty     tmp1
        ldy     tmp2
        iny
        tya
        sec
        sbc     tmp1
        tay
        rts
; void chline (unsigned char length), and the like
_cclearxy:
        pha
        jsr     gotoxy
        pla
_cclear:
        ldx     #' '
        bne     line
_chlinexy:
        pha
        jsr     gotoxy
        pla
_chline:
        ldx     #'-'
line:   tay
        beq     drawn
:       txa
        jsr     OSWRCH
        dey
        bne     :-
drawn:  rts
_cvlinexy:
        pha
        jsr     gotoxy
        pla
_cvline:
        tay
        beq     drawn
:       lda     #'|'
        jsr     OSWRCH
        lda     #8                      ; to the left and down
        jsr     OSWRCH
        lda     #10
        jsr     OSWRCH
        dey
        bne     :-
        rts

; clock_t clock (void): TIME
_clock: lda     #1
        ldx     #<file
        ldy     #>file
        jsr     OSWORD
        lda     file+2
        sta     sreg
        lda     file+3
        sta     sreg+1
        ldx     file+1
        lda     file
        rts
