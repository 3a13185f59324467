* ORDERS prints a line for each record of an order, and the total.
* A record has 24 bytes: an item, a quantity and a price in cents.
* At most five records are read. Storage from 0 is the caller's.
ORDERS   CSECT
         STM   14,12,12(13)        save the caller's registers
         BALR  12,0
         USING *,12
         LA    11,72(,13)          the work area is behind the save area
         USING WORK,11
         LA    2,SAVE
         ST    2,8(,13)            chain the save areas
         ST    13,4(,2)
         LR    13,2
         ZAP   TOTAL,=P'0'
         LA    10,5                records that may come
NEXT     LA    0,L'RECORD
         LA    1,RECORD
         SVC   2                   GET
         LTR   15,15
         BZ    DONE                none is left
         CH    15,=H'24'
         BL    SHORT               the record ends early
         MVC   LINE,BLANKS
         TRT   NUMBERS,NODIGIT
         BNZ   BAD                 quantity or price is no number
         LA    1,ITEM+L'ITEM
         TRT   ITEM,BLANK          where the name ends
         LA    3,ITEM
         SR    1,3                 the length of the name
         BNP   NONAME
         BCTR  1,0
         EX    1,MOVE
PRICED   L     15,=V(AMOUNT)
         LA    1,NUMBERS
         BALR  14,15               the product of quantity and price
         AP    TOTAL,PRODUCT
         MVC   MONEY,PATTERN
         LA    1,MONEY+11          where the first digit is at last
         EDMK  MONEY,PRODUCT
         BCTR  1,0
         MVI   0(1),C'$'           before the first digit
         BAL   9,PRINT
         BCT   10,NEXT
DONE     MVC   LINE,BLANKS
         MVC   NAME(5),=C'TOTAL'
         MVC   MONEY,PATTERN
         LA    1,MONEY+11
         EDMK  MONEY,TOTAL
         BCTR  1,0
         MVI   0(1),C'$'
         BAL   9,PRINT
         L     13,4(,13)
         LM    14,12,12(13)        the caller's registers
         SR    15,15
         BR    14
NONAME   MVC   NAME(7),=C'NO NAME'
         B     PRICED
BAD      MVC   NAME(L'ITEM),ITEM
         MVC   MONEY(9),=C'NO NUMBER'
         BAL   9,PRINT
         BCT   10,NEXT
         B     DONE
SHORT    MVC   LINE,BLANKS
         MVC   NAME(9),=C'CUT SHORT'
         BAL   9,PRINT
         B     DONE
PRINT    LA    0,L'LINE
         LA    1,LINE
         SVC   1                   PUT
         BR    9
MOVE     MVC   NAME(0),ITEM        executed with the length
         LTORG
BLANKS   DC    CL32' '
PATTERN  DC    X'402020206B2020206B2021204B2020'
NODIGIT  DC    240X'01',10X'00',6X'01'
BLANK    DC    64X'00',X'40',191X'00'
* AMOUNT multiplies, and takes a tenth off from 100 pieces on.
AMOUNT   CSECT
         STM   14,12,12(13)
         BALR  12,0
         USING *,12
         PACK  QUANTITY,0(3,1)
         PACK  PRODUCT,3(5,1)
         MP    PRODUCT,QUANTITY
         CP    QUANTITY,=P'100'
         BL    FULL                below 100 pieces
         MP    PRODUCT,=P'9'
         SRP   PRODUCT,64-1,5      a digit to the right, rounded
FULL     LM    14,12,12(13)
         BR    14
         LTORG
WORK     DSECT
SAVE     DS    18F
RECORD   DS    0CL24
ITEM     DS    CL12
NUMBERS  DS    0CL8
         DS    CL3                 quantity
         DS    CL5                 price
         DS    CL4
LINE     DS    0CL32
NAME     DS    CL17
MONEY    DS    CL15
QUANTITY DS    PL2
PRODUCT  DS    PL6
TOTAL    DS    PL6
         END   ORDERS
