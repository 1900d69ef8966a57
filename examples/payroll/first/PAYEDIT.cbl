000100 IDENTIFICATION DIVISION.                                         PAYEDIT
000200 PROGRAM-ID. PAYEDIT.                                             PAYEDIT
000300 AUTHOR. R T HOLLOWAY.                                            PAYEDIT
000400 INSTALLATION. COUNTY TREASURERS DEPARTMENT.                      PAYEDIT
000500 DATE-WRITTEN. MARCH 1978.                                        PAYEDIT
000600******************************************************************PAYEDIT
000700*    EDITS THE TRANSACTION CARDS OF THE MONTH. CARDS WITHOUT     *PAYEDIT
000800*    FAULT GO TO THE UPDATE (PAYUPDT), THE OTHERS ARE LISTED     *PAYEDIT
000900*    WITH THEIR FIRST FAULT.                                     *PAYEDIT
001000******************************************************************PAYEDIT
001100 ENVIRONMENT DIVISION.                                            PAYEDIT
001200 CONFIGURATION SECTION.                                           PAYEDIT
001300 SOURCE-COMPUTER. IBM-370.                                        PAYEDIT
001400 OBJECT-COMPUTER. IBM-370.                                        PAYEDIT
001500 INPUT-OUTPUT SECTION.                                            PAYEDIT
001600 FILE-CONTROL.                                                    PAYEDIT
001700     SELECT TRANS-FILE ASSIGN TO TRANS                            PAYEDIT
001800         FILE STATUS IS TRANS-STATUS.                             PAYEDIT
001900     SELECT GOOD-FILE ASSIGN TO GOODTRN                           PAYEDIT
002000         FILE STATUS IS GOOD-STATUS.                              PAYEDIT
002100     SELECT REJECT-FILE ASSIGN TO REJECTS.                        PAYEDIT
002200 DATA DIVISION.                                                   PAYEDIT
002300 FILE SECTION.                                                    PAYEDIT
002400 FD  TRANS-FILE                                                   PAYEDIT
002500     LABEL RECORDS ARE STANDARD                                   PAYEDIT
002600     BLOCK CONTAINS 0 RECORDS                                     PAYEDIT
002700     RECORD CONTAINS 80 CHARACTERS.                               PAYEDIT
002800     COPY TRNREC.                                                 PAYEDIT
002900 FD  GOOD-FILE                                                    PAYEDIT
003000     LABEL RECORDS ARE STANDARD                                   PAYEDIT
003100     BLOCK CONTAINS 0 RECORDS                                     PAYEDIT
003200     RECORD CONTAINS 80 CHARACTERS.                               PAYEDIT
003300 01  GOOD-CARD                    PIC X(80).                      PAYEDIT
003400 FD  REJECT-FILE                                                  PAYEDIT
003500     LABEL RECORDS ARE OMITTED                                    PAYEDIT
003600     RECORD CONTAINS 120 CHARACTERS.                              PAYEDIT
003700 01  REJECT-LINE                  PIC X(120).                     PAYEDIT
003800/                                                                 PAYEDIT
003900 WORKING-STORAGE SECTION.                                         PAYEDIT
004000 77  TRANS-STATUS                 PIC XX    VALUE SPACES.         PAYEDIT
004100 77  GOOD-STATUS                  PIC XX    VALUE SPACES.         PAYEDIT
004200 77  END-FLAG                     PIC X     VALUE "N".            PAYEDIT
004300     88  NO-MORE-CARDS            VALUE "Y".                      PAYEDIT
004400 77  DATE-FLAG                    PIC X     VALUE "N".            PAYEDIT
004500     88  DATE-IS-GOOD             VALUE "Y".                      PAYEDIT
004600 77  CARDS-READ                   PIC 9(5)  VALUE ZERO.           PAYEDIT
004700 77  CARDS-REJECTED               PIC 9(5)  VALUE ZERO.           PAYEDIT
004800 77  SALARY-HASH                  PIC 9(9)V99 VALUE ZERO.         PAYEDIT
004900 77  HIRE-AGE                     PIC 99    VALUE ZERO.           PAYEDIT
005000 77  HIRED-ON                     PIC 9(6)  VALUE 999999.         PAYEDIT
005100 01  RUN-DATE                     PIC 9(6).                       PAYEDIT
005200 01  CHECK-DATE                   PIC 9(6).                       PAYEDIT
005300 01  CHECK-PARTS REDEFINES CHECK-DATE.                            PAYEDIT
005400     05  CHECK-YY                 PIC 99.                         PAYEDIT
005500     05  CHECK-MM                 PIC 99.                         PAYEDIT
005600     05  CHECK-DD                 PIC 99.                         PAYEDIT
005700 01  MONTH-LENGTHS                PIC X(24)                       PAYEDIT
005800         VALUE "312931303130313130313031".                        PAYEDIT
005900 01  MONTH-TABLE REDEFINES MONTH-LENGTHS.                         PAYEDIT
006000     05  MONTH-LENGTH             PIC 99 OCCURS 12 TIMES.         PAYEDIT
006100 01  REJECT-HEADING.                                              PAYEDIT
006200     05  FILLER                   PIC X(34)                       PAYEDIT
006300         VALUE "PAYEDIT     REJECTED CARDS".                      PAYEDIT
006400     05  FILLER                   PIC X(22) VALUE SPACES.         PAYEDIT
006500     05  RH-DATE                  PIC 99/99/99.                   PAYEDIT
006600     05  FILLER                   PIC X(56) VALUE SPACES.         PAYEDIT
006700 01  REJECT-DETAIL.                                               PAYEDIT
006800     05  RD-CARD                  PIC X(80).                      PAYEDIT
006900     05  FILLER                   PIC XX    VALUE SPACES.         PAYEDIT
007000     05  RD-REASON                PIC X(30).                      PAYEDIT
007100     05  FILLER                   PIC X(8)  VALUE SPACES.         PAYEDIT
007200 01  REJECT-TOTAL.                                                PAYEDIT
007300     05  FILLER                   PIC X(11) VALUE "CARDS READ".   PAYEDIT
007400     05  RT-READ                  PIC ZZ,ZZ9.                     PAYEDIT
007500     05  FILLER                   PIC X(11) VALUE "  REJECTED".   PAYEDIT
007600     05  RT-REJECTED              PIC ZZ,ZZ9.                     PAYEDIT
007700     05  FILLER                   PIC X(86) VALUE SPACES.         PAYEDIT
007800/                                                                 PAYEDIT
007900 PROCEDURE DIVISION.                                              PAYEDIT
008000 0000-MAIN.                                                       PAYEDIT
008100     PERFORM 1000-START THRU 1000-EXIT.                           PAYEDIT
008200     PERFORM 2000-EDIT-CARD THRU 2000-EXIT                        PAYEDIT
008300         UNTIL NO-MORE-CARDS.                                     PAYEDIT
008400     PERFORM 9000-FINISH.                                         PAYEDIT
008500     STOP RUN.                                                    PAYEDIT
008600*                                                                 PAYEDIT
008700 1000-START.                                                      PAYEDIT
008800     OPEN INPUT TRANS-FILE.                                       PAYEDIT
008900     IF TRANS-STATUS NOT = "00"                                   PAYEDIT
009000         DISPLAY "PAYEDIT  NO CARDS, STATUS " TRANS-STATUS        PAYEDIT
009100         STOP RUN.                                                PAYEDIT
009200     OPEN OUTPUT GOOD-FILE REJECT-FILE.                           PAYEDIT
009300     ACCEPT RUN-DATE FROM DATE.                                   PAYEDIT
009400     MOVE RUN-DATE TO RH-DATE.                                    PAYEDIT
009500     WRITE REJECT-LINE FROM REJECT-HEADING                        PAYEDIT
009600         AFTER ADVANCING PAGE.                                    PAYEDIT
009700     PERFORM 8000-READ-CARD.                                      PAYEDIT
009800 1000-EXIT.                                                       PAYEDIT
009900     EXIT.                                                        PAYEDIT
010000*                                                                 PAYEDIT
010100 2000-EDIT-CARD.                                                  PAYEDIT
010200     MOVE SPACES TO RD-REASON.                                    PAYEDIT
010300     IF NOT (TRN-HIRED OR TRN-CHANGED OR TRN-LEFT)                PAYEDIT
010400         MOVE "CODE IS NOT H, C OR X" TO RD-REASON                PAYEDIT
010500         GO TO 2080-REJECT.                                       PAYEDIT
010600     IF TRN-NUMBER NOT NUMERIC                                    PAYEDIT
010700         MOVE "NUMBER IS NOT NUMERIC" TO RD-REASON                PAYEDIT
010800         GO TO 2080-REJECT.                                       PAYEDIT
010900     IF TRN-LEFT                                                  PAYEDIT
011000         GO TO 2070-GOOD.                                         PAYEDIT
011100     PERFORM 3000-EDIT-FIELDS THRU 3000-EXIT.                     PAYEDIT
011200     IF RD-REASON NOT = SPACES                                    PAYEDIT
011300         GO TO 2080-REJECT.                                       PAYEDIT
011400     IF TRN-HIRED                                                 PAYEDIT
011500         PERFORM 4000-EDIT-HIRE THRU 4000-EXIT.                   PAYEDIT
011600     IF RD-REASON NOT = SPACES                                    PAYEDIT
011700         GO TO 2080-REJECT.                                       PAYEDIT
011800 2070-GOOD.                                                       PAYEDIT
011900     WRITE GOOD-CARD FROM TRANSACTION-CARD.                       PAYEDIT
012000     GO TO 2090-NEXT.                                             PAYEDIT
012100 2080-REJECT.                                                     PAYEDIT
012200     MOVE TRANSACTION-CARD TO RD-CARD.                            PAYEDIT
012300     WRITE REJECT-LINE FROM REJECT-DETAIL                         PAYEDIT
012400         AFTER ADVANCING 1 LINE.                                  PAYEDIT
012500     ADD 1 TO CARDS-REJECTED.                                     PAYEDIT
012600 2090-NEXT.                                                       PAYEDIT
012700     PERFORM 8000-READ-CARD.                                      PAYEDIT
012800 2000-EXIT.                                                       PAYEDIT
012900     EXIT.                                                        PAYEDIT
013000*                                                                 PAYEDIT
013100*    FIELDS THAT A HIRED AND A CHANGED CARD MAY HAVE.             PAYEDIT
013200 3000-EDIT-FIELDS.                                                PAYEDIT
013300     IF TRN-CONTRACT-END NUMERIC AND NOT TRN-PERMANENT            PAYEDIT
013400         MOVE TRN-CONTRACT-END TO CHECK-DATE                      PAYEDIT
013500         PERFORM 7000-CHECK-DATE THRU 7000-EXIT                   PAYEDIT
013600         IF NOT DATE-IS-GOOD                                      PAYEDIT
013700             MOVE "CONTRACT END IS NO DATE" TO RD-REASON          PAYEDIT
013800             GO TO 3000-EXIT.                                     PAYEDIT
013900     IF TRN-SALARY NUMERIC                                        PAYEDIT
014000         ADD TRN-SALARY TO SALARY-HASH                            PAYEDIT
014100         IF TRN-SALARY < 300.00 OR > 9500.00                      PAYEDIT
014200             MOVE "SALARY OUT OF SCALE" TO RD-REASON.             PAYEDIT
014300 3000-EXIT.                                                       PAYEDIT
014400     EXIT.                                                        PAYEDIT
014500*                                                                 PAYEDIT
014600 4000-EDIT-HIRE.                                                  PAYEDIT
014700     IF TRN-BIRTH-DATE NOT NUMERIC OR TRN-HIRE-DATE NOT NUMERIC   PAYEDIT
014800         MOVE "BIRTH OR HIRE DATE MISSING" TO RD-REASON           PAYEDIT
014900         GO TO 4000-EXIT.                                         PAYEDIT
015000     MOVE TRN-BIRTH-DATE TO CHECK-DATE.                           PAYEDIT
015100     PERFORM 7000-CHECK-DATE THRU 7000-EXIT.                      PAYEDIT
015200     IF NOT DATE-IS-GOOD                                          PAYEDIT
015300         MOVE "BIRTH DATE IS NO DATE" TO RD-REASON                PAYEDIT
015400         GO TO 4000-EXIT.                                         PAYEDIT
015500     MOVE TRN-HIRE-DATE TO CHECK-DATE.                            PAYEDIT
015600     PERFORM 7000-CHECK-DATE THRU 7000-EXIT.                      PAYEDIT
015700     IF NOT DATE-IS-GOOD                                          PAYEDIT
015800         MOVE "HIRE DATE IS NO DATE" TO RD-REASON                 PAYEDIT
015900         GO TO 4000-EXIT.                                         PAYEDIT
016000     IF TRN-BIRTH-DATE NOT LESS THAN TRN-HIRE-DATE                PAYEDIT
016100         MOVE "HIRED BEFORE BIRTH" TO RD-REASON                   PAYEDIT
016200         GO TO 4000-EXIT.                                         PAYEDIT
016300     SUBTRACT TRN-BIRTH-YY FROM TRN-HIRE-YY GIVING HIRE-AGE.      PAYEDIT
016400     IF HIRE-AGE < 16 OR > 65                                     PAYEDIT
016500         MOVE "AGE AT HIRE NOT 16 TO 65" TO RD-REASON             PAYEDIT
016600         GO TO 4000-EXIT.                                         PAYEDIT
016700     IF TRN-CONTRACT-END NUMERIC                                  PAYEDIT
016800         MOVE TRN-HIRE-DATE TO HIRED-ON                           PAYEDIT
016900         IF TRN-CONTRACT-END < HIRED-ON                           PAYEDIT
017000             MOVE "CONTRACT ENDS BEFORE HIRE" TO RD-REASON.       PAYEDIT
017100 4000-EXIT.                                                       PAYEDIT
017200     EXIT.                                                        PAYEDIT
017300*                                                                 PAYEDIT
017400 7000-CHECK-DATE.                                                 PAYEDIT
017500     MOVE "N" TO DATE-FLAG.                                       PAYEDIT
017600     IF CHECK-MM < 1 OR > 12                                      PAYEDIT
017700         GO TO 7000-EXIT.                                         PAYEDIT
017800     IF CHECK-DD < 1 OR > MONTH-LENGTH (CHECK-MM)                 PAYEDIT
017900         GO TO 7000-EXIT.                                         PAYEDIT
018000     MOVE "Y" TO DATE-FLAG.                                       PAYEDIT
018100 7000-EXIT.                                                       PAYEDIT
018200     EXIT.                                                        PAYEDIT
018300*                                                                 PAYEDIT
018400 8000-READ-CARD.                                                  PAYEDIT
018500     READ TRANS-FILE                                              PAYEDIT
018600         AT END MOVE "Y" TO END-FLAG.                             PAYEDIT
018700     IF NOT NO-MORE-CARDS                                         PAYEDIT
018800         ADD 1 TO CARDS-READ.                                     PAYEDIT
018900*                                                                 PAYEDIT
019000 9000-FINISH.                                                     PAYEDIT
019100     MOVE CARDS-READ TO RT-READ.                                  PAYEDIT
019200     MOVE CARDS-REJECTED TO RT-REJECTED.                          PAYEDIT
019300     WRITE REJECT-LINE FROM REJECT-TOTAL                          PAYEDIT
019400         AFTER ADVANCING 2 LINES.                                 PAYEDIT
019500     DISPLAY "PAYEDIT  CARDS " CARDS-READ                         PAYEDIT
019600         "  REJECTED " CARDS-REJECTED.                            PAYEDIT
019700     CLOSE TRANS-FILE GOOD-FILE REJECT-FILE.                      PAYEDIT
