* SERVICES answers supervisor calls as an operating system's routines do.
* A routine has its address in 15 and its way back in 14. When it has gone
* back registers 2 to 14 are its caller's again, and its answers stand in
* 0, 1 and 15.
* Low storage is the job's: at 16 the address of the first free block, or
* zero, at 20 the time of day, and at 24 the date. A free block begins with
* the address of the next, or zero, and with its length. Blocks are in order
* of address, their lengths multiples of 8, and none stand side by side.
SERVICES CSECT
         ENTRY SVC010,SVC011,SVC013,SVC035
         USING LOW,0
* GETMAIN and FREEMAIN of the register form. Register 0 has the number of
* bytes in bits 8-31. Where bit 0 of register 1 is one it gets the address
* of so many bytes; else it has the address of those that are given back.
         USING SVC010,15
SVC010   LR    3,0
         N     3,=X'00FFFFFF'      without the subpool's number
         A     3,=F'7'
         N     3,=F'-8'            whole doublewords
         LTR   1,1
         BNM   GIVEN
         LA    7,FIRST             where the address of a block stands
SEARCH   L     5,0(,7)
         LTR   5,5
         BZ    NONE
         L     4,4(,5)
         SR    4,3                 what the block has beyond them
         BM    NEXT                it is too small
         BZ    WHOLE
         LA    6,0(3,5)            the rest is a block behind them
         MVC   0(4,6),0(5)
         ST    4,4(,6)
         ST    6,0(,7)
         B     GOT
NEXT     LR    7,5
         B     SEARCH
WHOLE    MVC   0(4,7),0(5)
GOT      LR    1,5
         B     DONE
NONE     SVC   80                  the task ends BADSVC 80: no storage
* The block at 6, 3 bytes long, goes between the ones at 7 and at 5.
GIVEN    LTR   3,3
         BZ    DONE
         LA    6,0(,1)
         LA    4,7
         NR    4,6
         BNZ   WRONG               it is on no doubleword
         LA    7,FIRST
         CR    6,7
         BNH   WRONG               it is low storage
PLACE    L     5,0(,7)
         LTR   5,5
         BZ    LAST                it is the last one
         CR    5,6
         BH    BEFORE
         LR    7,5
         B     PLACE
BEFORE   LA    4,0(3,6)
         CR    4,5
         BH    WRONG               it reaches into the next one
LAST     LA    4,FIRST
         CR    7,4
         BE    SOLE                no block stands before it
         LR    4,7
         A     4,4(,7)
         CR    4,6
         BH    WRONG               the one before reaches into it
SOLE     LA    8,0(3,6)
         CR    8,5
         BNE   APART
         A     3,4(,5)             it and the next one are one
         L     5,0(,5)
APART    CR    4,6
         BNE   OWN
         A     3,4(,7)             so are the one before and it
         LR    6,7
         B     PUT
OWN      ST    6,0(,7)
PUT      ST    5,0(,6)
         ST    3,4(,6)
DONE     SR    15,15
         BR    14
WRONG    SVC   90                  BADSVC 90: no storage of the task's
* TIME: the time of day in register 0, and the date in register 1.
         USING SVC011,15
SVC011   LM    0,1,TIME
         SR    15,15
         BR    14
* ABEND: the code stays in register 1, and register 15 has its last three
* digits, which are a user's.
         USING SVC013,15
SVC013   L     2,=X'00000FFF'
         NR    2,1
         LR    15,2
         SVC   3                   the task ends EXIT
* WTO: register 1 is the address of a halfword, the length of the text and
* 4; of two bytes of flags; and of the text.
         USING SVC035,15
SVC035   LH    0,0(,1)
         SH    0,=H'4'
         LA    1,4(,1)
         SVC   1                   the text
         LA    0,L'NEWLINE
         LA    1,NEWLINE
         SVC   1                   and the end of its line
         SR    15,15
         BR    14
         LTORG
NEWLINE  DC    X'15'
LOW      DSECT
         DS    4F
FIRST    DS    A                   the first free block
TIME     DS    2F                  time of day and date
         END   SERVICES
