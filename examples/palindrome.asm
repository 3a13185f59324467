* PALIN says whether the letters of a text read the same backwards.
* At most 80 bytes are read. Storage from 0 is the caller's.
PALIN    CSECT
         STM   14,12,12(13)        save the caller's registers
         LR    12,15
         USING PALIN,12
         LA    11,72(,13)          the work area is behind the save area
         USING WORK,11
         MVC   LINE,BLANKS
         LA    0,L'TEXT
         LA    1,TEXT
         SVC   2                   GET
         LTR   3,15
         BZ    EMPTY
         BCTR  3,0
         EX    3,FOLD              capital letters, and blanks
         LA    4,TEXT              the byte in hand
         LA    5,CLEAN             where the next letter goes
         LA    6,1
         LA    7,TEXT(3)           the last byte
LOOP     CLI   0(4),C' '
         BE    SKIP                no letter
         MVC   0(1,5),0(4)
         LA    5,1(,5)
SKIP     BXLE  4,6,LOOP
         LA    4,CLEAN
         SR    5,4                 the number of letters
         BZ    EMPTY
         LR    8,5
         BCTR  8,0
         LA    9,CLEAN(8)          the last letter
         EX    8,TURN
         EX    8,SAME
         BNE   OTHER
         MVC   LINE(15),=C'READS THE SAME:'
         B     COUNTED
OTHER    MVC   LINE(15),=C'READS OTHERWISE'
COUNTED  BAL   10,NUMBER
         MVC   LINE+20(7),=C'LETTERS'
PRINT    LA    0,L'LINE
         LA    1,LINE
         SVC   1                   PUT
         LM    14,12,12(13)        the caller's registers
         SR    15,15
         BR    14
EMPTY    MVC   LINE(10),=C'NO LETTERS'
         B     PRINT
NUMBER   CVD   5,DOUBLE
         MVC   LINE+15(4),=X'40202120'
         ED    LINE+15(4),DOUBLE+6
         BR    10
FOLD     TR    TEXT(0),CAPITALS
TURN     MVCIN BACK(0),0(9)
SAME     CLC   CLEAN(0),BACK
         LTORG
BLANKS   DC    CL32' '
CAPITALS DC    129C' ',C'ABCDEFGHI',7C' ',C'JKLMNOPQR',8C' ',C'STUVWXYZ'
         DC    23C' ',C'ABCDEFGHI',7C' ',C'JKLMNOPQR',8C' ',C'STUVWXYZ'
         DC    22C' '
TEXTS    DC    A(BLANKS,CAPITALS),AL3(PALIN)
WORK     DSECT
DOUBLE   DS    D
TEXT     DS    CL80
CLEAN    DS    CL80
BACK     DS    CL80
LINE     DS    CL32
         END   PALIN
