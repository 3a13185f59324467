* LEDGER posts the entries of an account, and writes a line for each, and
* its balance. It stores into storage that it gets and gives back, so that
* any number of tasks may run it at once.
* Register 1 has the address of two addresses: of the account's name, eight
* characters, and of its entries. An entry has sixteen bytes: D for a debit
* or C for a credit, ten characters of text, and the amount in cents. A
* byte X'FF' stands behind the last one.
* Register 15 is 0 in the end, or 4 where an entry was neither.
LEDGER   CSECT
         SAVE  (14,12),,*
+         B     12(0,15)            BRANCH AROUND ID
+         DC    AL1(6)
+         DC    CL6'LEDGER'         IDENTIFIER
+         STM   14,12,12(13)        SAVE REGISTERS
         LR    12,15
         USING LEDGER,12
         LR    2,1                 the caller's two addresses
         GETMAIN R,LV=WORKSIZE
+         LA    0,WORKSIZE(0,0)     LOAD LENGTH
+         BAL   1,*+4               INDICATE GETMAIN
+         SVC   10                  ISSUE GETMAIN SVC
         ST    13,4(,1)            chain the save areas
         ST    1,8(,13)
         LR    13,1
         USING WORK,13
         LM    3,4,0(2)            the name and the entries
         USING ENTRY,4
         ZAP   BALANCE,=P'0'
         SR    5,5                 entries that were posted
         SR    7,7                 what 15 will be
         TIME  DEC
+         LA    1,2(0,0)            LOAD 1 TO SPECIFY UNIT
+         SVC   11                  ISSUE TIME SVC
         ST    0,CLOCK
         MVC   HEAD,HEADING
         MVC   HEADNAME,0(3)
         ED    HEADTIME,CLOCK
         MVI   HEADTIME,C' '
         WTO   MF=(E,HEAD)
+         LA    1,HEAD              LOAD PARAMETER REG 1
+         SVC   35                  ISSUE SVC
NEXT     CLI   KIND,X'FF'
         BE    BEHIND
         ST    4,LIST
         LA    0,BALANCE
         ST    0,LIST+4
         OI    LIST+4,X'80'        the last address of the list
         LA    1,LIST
         L     15,=V(POST)
         BALR  14,15
         LTR   15,15
         BZ    POSTED
         LR    7,15
         B     PASSED
POSTED   LA    5,1(,5)
PASSED   LA    4,ENTRYLEN(,4)
         B     NEXT
BEHIND   LTR   5,5
         BZ    NOTHING
         MVC   FOOT,FOOTING
         ED    FOOTSUM,BALANCE
         WTO   MF=(E,FOOT)
+         LA    1,FOOT              LOAD PARAMETER REG 1
+         SVC   35                  ISSUE SVC
         CP    BALANCE,=P'0'
         BNM   LEAVE
         WTO   'OVERDRAWN'
+         CNOP  0,4
+         BAL   1,IHB0009A          BRANCH AROUND MESSAGE
+         DC    AL2(13)             TEXT LENGTH
+         DC    B'0000000000000000' MCSFLAGS
+         DC    C'OVERDRAWN'
+IHB0009A DS    0H
+         SVC   35                  ISSUE SVC
LEAVE    LR    1,13
         L     13,4(,13)           the caller's save area
         FREEMAIN R,LV=WORKSIZE,A=(1)
+         LA    0,WORKSIZE(0,0)     LOAD LENGTH
+         LA    1,0(0,1)            CLEAR THE HIGH ORDER BYTE
+         SVC   10                  ISSUE FREEMAIN SVC
         ST    7,16(,13)           15 as the caller gets it
         LM    14,12,12(13)
         BR    14
NOTHING  ABEND 100                 no entry was posted
+NOTHING  DS    0H
+         CNOP  0,4
+         B     *+8                 BRANCH AROUND CONSTANT
+         DC    AL1(0)              DUMP/STEP CODE
+         DC    AL3(100)            COMPLETION CODE
+         L     1,*-4               LOAD CODES INTO REG 1
+         SVC   13                  LINK TO ABEND ROUTINE
         LTORG
HEADING  DC    AL2(HEADEND-HEADING),X'0000',C'LEDGER OF NNNNNNNN AT'
         DC    X'F021204B20204B2020'
HEADEND  EQU   *
FOOTING  DC    AL2(FOOTEND-FOOTING),X'0000',C'BALANCE   '
         DC    X'40206B2020206B2021204B202060'
FOOTEND  EQU   *
         DROP  12,13
* POST posts an entry to a balance, and writes its line. Register 1 has the
* address of their two addresses; 15 is 0, or 4 where it is no entry.
POST     CSECT
         SAVE  (14,12)
+         STM   14,12,12(13)        SAVE REGISTERS
         BALR  12,0
         USING *,12
         LR    2,1
         GETMAIN R,LV=LINESIZE
+         LA    0,LINESIZE(0,0)     LOAD LENGTH
+         BAL   1,*+4               INDICATE GETMAIN
+         SVC   10                  ISSUE GETMAIN SVC
         ST    13,4(,1)
         ST    1,8(,13)
         LR    13,1
         USING LINE,13
         LM    4,5,0(2)            the entry and the balance
         SR    7,7
         MVC   TEXT,MODEL
         MVC   ITEM,NAME
         CLI   KIND,C'D'
         BE    DEBIT
         CLI   KIND,C'C'
         BE    CREDIT
         LA    7,4
         MVC   SUM,=CL14'NO ENTRY'
         B     WRITE
DEBIT    SP    0(5,5),AMOUNT
         B     EDIT
CREDIT   AP    0(5,5),AMOUNT
EDIT     ED    SUM,AMOUNT
         MVC   SUM+13(1),KIND
WRITE    WTO   MF=(E,TEXT)
+WRITE    LA    1,TEXT              LOAD PARAMETER REG 1
+         SVC   35                  ISSUE SVC
         LR    1,13
         L     13,4(,13)
         FREEMAIN R,LV=LINESIZE,A=(1)
+         LA    0,LINESIZE(0,0)     LOAD LENGTH
+         LA    1,0(0,1)            CLEAR THE HIGH ORDER BYTE
+         SVC   10                  ISSUE FREEMAIN SVC
         ST    7,16(,13)
         LM    14,12,12(13)
         BR    14
         LTORG
MODEL    DC    AL2(MODELEND-MODEL),X'0000',C'TEXT      '
         DC    X'40206B2020206B2021204B202040'
MODELEND EQU   *
* What LEDGER gets.
WORK     DSECT
         DS    18F
LIST     DS    2A
CLOCK    DS    F
BALANCE  DS    PL5
         DS    0H
HEAD     DS    0CL34
         DS    XL4
         DS    CL10
HEADNAME DS    CL8
         DS    CL3
HEADTIME DS    CL9
         DS    0H
FOOT     DS    0CL28
         DS    XL4
         DS    CL10
FOOTSUM  DS    CL14
WORKSIZE EQU   *-WORK
* What POST gets.
LINE     DSECT
         DS    18F
TEXT     DS    0CL28
         DS    XL4
ITEM     DS    CL10
SUM      DS    CL14
LINESIZE EQU   *-LINE
ENTRY    DSECT
KIND     DS    CL1
NAME     DS    CL10
AMOUNT   DS    PL5
ENTRYLEN EQU   *-ENTRY
         END   LEDGER
