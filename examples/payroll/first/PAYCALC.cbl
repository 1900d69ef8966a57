000100 IDENTIFICATION DIVISION.                                         PAYCALC
000200 PROGRAM-ID. PAYCALC.                                             PAYCALC
000300 AUTHOR. D MARSH.                                                 PAYCALC
000400 INSTALLATION. COUNTY TREASURERS DEPARTMENT.                      PAYCALC
000500 DATE-WRITTEN. NOVEMBER 1983.                                     PAYCALC
000600******************************************************************PAYCALC
000700*    THE PAY REGISTER OF THE MONTH. PAY IS SALARY AND A BONUS    *PAYCALC
000800*    OF ONE PER CENT FOR EACH FULL YEAR OF SERVICE, TWENTY AT    *PAYCALC
000900*    MOST. WHO HAD NO RISE FOR THREE YEARS IS MARKED.            *PAYCALC
001000******************************************************************PAYCALC
001100 ENVIRONMENT DIVISION.                                            PAYCALC
001200 CONFIGURATION SECTION.                                           PAYCALC
001300 SOURCE-COMPUTER. IBM-370.                                        PAYCALC
001400 OBJECT-COMPUTER. IBM-370.                                        PAYCALC
001500 INPUT-OUTPUT SECTION.                                            PAYCALC
001600 FILE-CONTROL.                                                    PAYCALC
001700     SELECT CONTROL-FILE ASSIGN TO CTLCARDS                       PAYCALC
001800         FILE STATUS IS CONTROL-STATUS.                           PAYCALC
001900     SELECT MASTER-FILE ASSIGN TO EMPNEW                          PAYCALC
002000         FILE STATUS IS MASTER-STATUS.                            PAYCALC
002100     SELECT REGISTER-FILE ASSIGN TO REGISTER.                     PAYCALC
002200 DATA DIVISION.                                                   PAYCALC
002300 FILE SECTION.                                                    PAYCALC
002400 FD  CONTROL-FILE                                                 PAYCALC
002500     LABEL RECORDS ARE STANDARD                                   PAYCALC
002600     RECORD CONTAINS 80 CHARACTERS.                               PAYCALC
002700     COPY CTLCARD.                                                PAYCALC
002800 FD  MASTER-FILE                                                  PAYCALC
002900     LABEL RECORDS ARE STANDARD                                   PAYCALC
003000     BLOCK CONTAINS 0 RECORDS                                     PAYCALC
003100     RECORD CONTAINS 80 CHARACTERS.                               PAYCALC
003200     COPY EMPREC.                                                 PAYCALC
003300 FD  REGISTER-FILE                                                PAYCALC
003400     LABEL RECORDS ARE OMITTED                                    PAYCALC
003500     RECORD CONTAINS 100 CHARACTERS.                              PAYCALC
003600 01  REGISTER-LINE                PIC X(100).                     PAYCALC
003700/                                                                 PAYCALC
003800 WORKING-STORAGE SECTION.                                         PAYCALC
003900 77  CONTROL-STATUS               PIC XX    VALUE SPACES.         PAYCALC
004000 77  MASTER-STATUS                PIC XX    VALUE SPACES.         PAYCALC
004100 77  END-FLAG                     PIC X     VALUE "N".            PAYCALC
004200     88  END-OF-MASTER            VALUE "Y".                      PAYCALC
004300 77  SERVICE-YEARS                PIC 99    VALUE ZERO.           PAYCALC
004400 77  YEARS-SINCE-RISE             PIC 99    VALUE ZERO.           PAYCALC
004500 77  BONUS                        PIC 9(5)V99 VALUE ZERO.         PAYCALC
004600 77  GROSS-PAY                    PIC 9(6)V99 VALUE ZERO.         PAYCALC
004700 77  TOTAL-PAY                    PIC 9(8)V99 VALUE ZERO.         PAYCALC
004800 77  TOTAL-STAFF                  PIC 9(4)  VALUE ZERO.           PAYCALC
004900 77  DEPT-INDEX                   PIC 99    VALUE ZERO.           PAYCALC
005000 77  DEPTS-USED                   PIC 99    VALUE ZERO.           PAYCALC
005100 01  DEPARTMENT-TABLE.                                            PAYCALC
005200     05  DEPARTMENT-ENTRY OCCURS 20 TIMES.                        PAYCALC
005300         10  DEPT-CODE            PIC X(3).                       PAYCALC
005400         10  DEPT-STAFF           PIC 9(4).                       PAYCALC
005500         10  DEPT-PAY             PIC 9(8)V99.                    PAYCALC
005600 01  HEADING-1.                                                   PAYCALC
005700     05  FILLER                   PIC X(90)                       PAYCALC
005800         VALUE "PAYCALC     PAY REGISTER".                        PAYCALC
005900     05  H1-MM                    PIC 99.                         PAYCALC
006000     05  FILLER                   PIC X     VALUE "/".            PAYCALC
006100     05  H1-YY                    PIC 99.                         PAYCALC
006200     05  FILLER                   PIC X(5)  VALUE SPACES.         PAYCALC
006300 01  HEADING-2.                                                   PAYCALC
006400     05  FILLER                   PIC X(37)                       PAYCALC
006500         VALUE "NUMBER  NAME                      DEP".           PAYCALC
006600     05  FILLER                   PIC X(11)                       PAYCALC
006700         VALUE "  YEARS".                                         PAYCALC
006800     05  FILLER                   PIC X(16)                       PAYCALC
006900         VALUE "SINCE    SALARY ".                                PAYCALC
007000     05  FILLER                   PIC X(36)                       PAYCALC
007100         VALUE "        BONUS           PAY".                     PAYCALC
007200 01  DETAIL-LINE.                                                 PAYCALC
007300     05  DL-NUMBER                PIC 9(5).                       PAYCALC
007400     05  FILLER                   PIC X(3)  VALUE SPACES.         PAYCALC
007500     05  DL-SURNAME               PIC X(14).                      PAYCALC
007600     05  FILLER                   PIC X     VALUE SPACE.          PAYCALC
007700     05  DL-FORENAME              PIC X(10).                      PAYCALC
007800     05  FILLER                   PIC X     VALUE SPACE.          PAYCALC
007900     05  DL-DEPARTMENT            PIC X(3).                       PAYCALC
008000     05  FILLER                   PIC X(3)  VALUE SPACES.         PAYCALC
008100     05  DL-SERVICE               PIC Z9.                         PAYCALC
008200     05  FILLER                   PIC X(3)  VALUE SPACES.         PAYCALC
008300     05  DL-RISE-MM               PIC 99.                         PAYCALC
008400     05  FILLER                   PIC X     VALUE "/".            PAYCALC
008500     05  DL-RISE-YY               PIC 99.                         PAYCALC
008600     05  DL-RISE-MARK             PIC X     VALUE SPACE.          PAYCALC
008700     05  FILLER                   PIC X(3)  VALUE SPACES.         PAYCALC
008800     05  DL-SALARY                PIC ZZ,ZZ9.99.                  PAYCALC
008900     05  FILLER                   PIC X(4)  VALUE SPACES.         PAYCALC
009000     05  DL-BONUS                 PIC ZZ,ZZ9.99.                  PAYCALC
009100     05  FILLER                   PIC X(4)  VALUE SPACES.         PAYCALC
009200     05  DL-PAY                   PIC ZZZ,ZZ9.99.                 PAYCALC
009300     05  FILLER                   PIC X(10) VALUE SPACES.         PAYCALC
009400 01  TOTAL-LINE.                                                  PAYCALC
009500     05  TL-TEXT                  PIC X(11).                      PAYCALC
009600     05  TL-DEPARTMENT            PIC X(3).                       PAYCALC
009700     05  FILLER                   PIC X(6)  VALUE " STAFF".       PAYCALC
009800     05  TL-STAFF                 PIC Z,ZZ9.                      PAYCALC
009900     05  FILLER                   PIC X(51) VALUE SPACES.         PAYCALC
010000     05  TL-PAY                   PIC ZZ,ZZZ,ZZ9.99.              PAYCALC
010100     05  FILLER                   PIC X(11) VALUE SPACES.         PAYCALC
010200/                                                                 PAYCALC
010300 PROCEDURE DIVISION.                                              PAYCALC
010400 0000-MAIN.                                                       PAYCALC
010500     PERFORM 1000-START.                                          PAYCALC
010600     PERFORM 2000-EMPLOYEE THRU 2000-EXIT                         PAYCALC
010700         UNTIL END-OF-MASTER.                                     PAYCALC
010800     PERFORM 6000-DEPARTMENT-TOTAL                                PAYCALC
010900         VARYING DEPT-INDEX FROM 1 BY 1                           PAYCALC
011000         UNTIL DEPT-INDEX > DEPTS-USED.                           PAYCALC
011100     MOVE "ALL" TO TL-TEXT.                                       PAYCALC
011200     MOVE SPACES TO TL-DEPARTMENT.                                PAYCALC
011300     MOVE TOTAL-STAFF TO TL-STAFF.                                PAYCALC
011400     MOVE TOTAL-PAY TO TL-PAY.                                    PAYCALC
011500     WRITE REGISTER-LINE FROM TOTAL-LINE                          PAYCALC
011600         AFTER ADVANCING 2 LINES.                                 PAYCALC
011700     DISPLAY "PAYCALC  PERIOD " CTL-PERIOD "  TOTAL " TL-PAY.     PAYCALC
011800     CLOSE MASTER-FILE REGISTER-FILE.                             PAYCALC
011900     STOP RUN.                                                    PAYCALC
012000*                                                                 PAYCALC
012100 1000-START.                                                      PAYCALC
012200     OPEN INPUT CONTROL-FILE.                                     PAYCALC
012300     IF CONTROL-STATUS NOT = "00"                                 PAYCALC
012400         DISPLAY "PAYCALC  NO CONTROL CARD"                       PAYCALC
012500         STOP RUN.                                                PAYCALC
012600     READ CONTROL-FILE                                            PAYCALC
012700         AT END DISPLAY "PAYCALC  CONTROL CARD MISSING"           PAYCALC
012800                STOP RUN.                                         PAYCALC
012900     CLOSE CONTROL-FILE.                                          PAYCALC
013000     OPEN INPUT MASTER-FILE OUTPUT REGISTER-FILE.                 PAYCALC
013100     IF MASTER-STATUS NOT = "00"                                  PAYCALC
013200         DISPLAY "PAYCALC  NO MASTER, STATUS " MASTER-STATUS      PAYCALC
013300         STOP RUN.                                                PAYCALC
013400     MOVE CTL-MM TO H1-MM.                                        PAYCALC
013500     MOVE CTL-YY TO H1-YY.                                        PAYCALC
013600     WRITE REGISTER-LINE FROM HEADING-1 AFTER ADVANCING PAGE.     PAYCALC
013700     WRITE REGISTER-LINE FROM HEADING-2 AFTER ADVANCING 2 LINES.  PAYCALC
013800     PERFORM 8000-READ-MASTER.                                    PAYCALC
013900*                                                                 PAYCALC
014000 2000-EMPLOYEE.                                                   PAYCALC
014100     IF EMP-LEFT                                                  PAYCALC
014200         GO TO 2090-NEXT.                                         PAYCALC
014300*    YEARS OF SERVICE, FULL MONTHS ALONE COUNT.                   PAYCALC
014400     SUBTRACT EMP-HIRE-YY FROM CTL-YY GIVING SERVICE-YEARS.       PAYCALC
014500     IF EMP-HIRE-MM > CTL-MM AND SERVICE-YEARS > 0                PAYCALC
014600         SUBTRACT 1 FROM SERVICE-YEARS.                           PAYCALC
014700     IF SERVICE-YEARS > 20                                        PAYCALC
014800         MOVE 20 TO SERVICE-YEARS.                                PAYCALC
014900     COMPUTE BONUS ROUNDED =                                      PAYCALC
015000         EMP-SALARY * SERVICE-YEARS / 100.                        PAYCALC
015100     ADD EMP-SALARY BONUS GIVING GROSS-PAY.                       PAYCALC
015200     ADD GROSS-PAY TO TOTAL-PAY.                                  PAYCALC
015300     ADD 1 TO TOTAL-STAFF.                                        PAYCALC
015400     COMPUTE YEARS-SINCE-RISE = CTL-YY - EMP-RISE-YY.             PAYCALC
015500     IF YEARS-SINCE-RISE < 3                                      PAYCALC
015600         MOVE SPACE TO DL-RISE-MARK                               PAYCALC
015700     ELSE                                                         PAYCALC
015800         MOVE "*" TO DL-RISE-MARK.                                PAYCALC
015900     PERFORM 3000-PRINT-EMPLOYEE.                                 PAYCALC
016000     PERFORM 4000-ADD-DEPARTMENT THRU 4000-EXIT.                  PAYCALC
016100 2090-NEXT.                                                       PAYCALC
016200     PERFORM 8000-READ-MASTER.                                    PAYCALC
016300 2000-EXIT.                                                       PAYCALC
016400     EXIT.                                                        PAYCALC
016500*                                                                 PAYCALC
016600 3000-PRINT-EMPLOYEE.                                             PAYCALC
016700     MOVE EMP-NUMBER TO DL-NUMBER.                                PAYCALC
016800     MOVE EMP-SURNAME TO DL-SURNAME.                              PAYCALC
016900     MOVE EMP-FORENAME TO DL-FORENAME.                            PAYCALC
017000     MOVE EMP-DEPARTMENT TO DL-DEPARTMENT.                        PAYCALC
017100     MOVE SERVICE-YEARS TO DL-SERVICE.                            PAYCALC
017200     MOVE EMP-RISE-MM TO DL-RISE-MM.                              PAYCALC
017300     MOVE EMP-RISE-YY TO DL-RISE-YY.                              PAYCALC
017400     MOVE EMP-SALARY TO DL-SALARY.                                PAYCALC
017500     MOVE BONUS TO DL-BONUS.                                      PAYCALC
017600     MOVE GROSS-PAY TO DL-PAY.                                    PAYCALC
017700     WRITE REGISTER-LINE FROM DETAIL-LINE                         PAYCALC
017800         AFTER ADVANCING 1 LINE.                                  PAYCALC
017900*                                                                 PAYCALC
018000 4000-ADD-DEPARTMENT.                                             PAYCALC
018100     MOVE 1 TO DEPT-INDEX.                                        PAYCALC
018200 4010-LOOK.                                                       PAYCALC
018300     IF DEPT-INDEX > DEPTS-USED                                   PAYCALC
018400         GO TO 4020-NEW.                                          PAYCALC
018500     IF DEPT-CODE (DEPT-INDEX) = EMP-DEPARTMENT                   PAYCALC
018600         GO TO 4030-ADD.                                          PAYCALC
018700     ADD 1 TO DEPT-INDEX.                                         PAYCALC
018800     GO TO 4010-LOOK.                                             PAYCALC
018900 4020-NEW.                                                        PAYCALC
019000     IF DEPTS-USED = 20                                           PAYCALC
019100         DISPLAY "PAYCALC  DEPARTMENT TABLE IS FULL"              PAYCALC
019200         GO TO 4000-EXIT.                                         PAYCALC
019300     ADD 1 TO DEPTS-USED.                                         PAYCALC
019400     MOVE EMP-DEPARTMENT TO DEPT-CODE (DEPT-INDEX).               PAYCALC
019500     MOVE ZERO TO DEPT-STAFF (DEPT-INDEX) DEPT-PAY (DEPT-INDEX).  PAYCALC
019600 4030-ADD.                                                        PAYCALC
019700     ADD 1 TO DEPT-STAFF (DEPT-INDEX).                            PAYCALC
019800     ADD GROSS-PAY TO DEPT-PAY (DEPT-INDEX).                      PAYCALC
019900 4000-EXIT.                                                       PAYCALC
020000     EXIT.                                                        PAYCALC
020100*                                                                 PAYCALC
020200 6000-DEPARTMENT-TOTAL.                                           PAYCALC
020300     MOVE "DEPARTMENT" TO TL-TEXT.                                PAYCALC
020400     MOVE DEPT-CODE (DEPT-INDEX) TO TL-DEPARTMENT.                PAYCALC
020500     MOVE DEPT-STAFF (DEPT-INDEX) TO TL-STAFF.                    PAYCALC
020600     MOVE DEPT-PAY (DEPT-INDEX) TO TL-PAY.                        PAYCALC
020700     WRITE REGISTER-LINE FROM TOTAL-LINE                          PAYCALC
020800         AFTER ADVANCING 1 LINE.                                  PAYCALC
020900*                                                                 PAYCALC
021000 8000-READ-MASTER.                                                PAYCALC
021100     READ MASTER-FILE                                             PAYCALC
021200         AT END MOVE "Y" TO END-FLAG.                             PAYCALC
