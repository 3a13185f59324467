* TARIFF prices a parcel: a zone of three letters, a weight of three digits.
* Storage from 0 is the caller's: a save area, then the work area.
TARIFF   CSECT
         STM   14,12,12(13)        save the caller's registers
         BALR  12,0
         USING *,12
         LA    11,72(,13)          the work area is behind the save area
         USING WORK,11
         MVI   LINE,C' '
         MVC   LINE+1(L'LINE-1),LINE
         LA    0,L'PARCEL
         LA    1,PARCEL
         SVC   2                   GET
         CH    15,=H'6'
         BNE   BAD                 the parcel's record ends early
         LA    3,ZONES             the row in hand
         LA    4,ROWS
SEARCH   CLC   ZONE,0(3)
         BE    FOUND
         LA    3,ROW(,3)
         BCT   4,SEARCH
         MVC   LINE(7),=C'NO ZONE'
         B     PRINT
FOUND    LA    5,WEIGHT
         LA    6,L'WEIGHT
DIGIT    CLI   0(5),C'0'
         BL    BAD                 no digit
         LA    5,1(,5)
         BCT   6,DIGIT
         PACK  PRICE,WEIGHT
         MP    PRICE,3(2,3)        by the zone's rate
         CP    PRICE,LEAST
         BNL   EDIT
         ZAP   PRICE,LEAST
EDIT     MVC   LINE(3),ZONE
         MVC   LINE+4(3),WEIGHT
         MVC   LINE+8(2),=C'KG'
         MVC   LINE+10(9),PATTERN
         ED    LINE+10(9),PRICE
PRINT    LA    0,L'LINE
         LA    1,LINE
         SVC   1                   PUT
         LM    14,12,12(13)        the caller's registers
         SR    15,15
         BR    14
BAD      MVC   LINE(10),=C'BAD PARCEL'
         B     PRINT
         LTORG
PATTERN  DC    X'402020202120',C'.',X'2020'
LEAST    DC    PL2'350'
ZONES    DC    C'NOR',PL2'125'
         DC    C'EST',PL2'95'
         DC    C'SUD',PL2'210'
         DC    C'WES',PL2'80'
ROW      EQU   5
ROWS     EQU   (*-ZONES)/ROW
WORK     DSECT
PRICE    DS    PL4
PARCEL   DS    0CL6
ZONE     DS    CL3
WEIGHT   DS    CL3
LINE     DS    CL19
         END   TARIFF
