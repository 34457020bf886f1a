        org &C000
start:  LDA #&41
        STA &0070
        BNE start
