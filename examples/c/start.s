; Start-up code of C programs for cc65's none.lib, on the second processor and on the host: the header that tells
; tools/execute what the program is, its beginning and its end. The words that begin with __ are of
; para.cfg and host.cfg. It is assembled by `--cpu 6502` or by `--cpu 65C02`, which the header tells.

        .export         _exit
        .export         __STARTUP__ : absolute = 1
        .import         zerobss, initlib, donelib, callmain
        .import         __MACHINE__, __MAIN_START__, __STACKTOP__, __END__
        .include        "zeropage.inc"
        .macpack        cpu

        .segment        "HEADER"
        .byte           "BTP1"
        .byte           <__MACHINE__            ; 0 the second processor, 1 the host
        .byte           (.cpu & CPU_ISET_65C02) / CPU_ISET_65C02
        .addr           __MAIN_START__          ; where the bytes behind the header lie
        .addr           start                   ; where it begins
        .res            6

        .segment        "STARTUP"
start:  cld
        lda     #<__STACKTOP__
        ldx     #>__STACKTOP__
        sta     sp
        stx     sp+1
        jsr     zerobss
        jsr     initlib
        jsr     callmain

; exit(status): from any depth of calls.
_exit:  pha
        jsr     donelib
        pla
        jmp     __END__
