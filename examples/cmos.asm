        org &2000
        LDA (&12)
