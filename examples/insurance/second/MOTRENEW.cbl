000010 IDENTIFICATION DIVISION.                                         MOTRENEW
000020 PROGRAM-ID. MOTRENEW.                                            MOTRENEW
000030 AUTHOR. J VAN DER MEER.                                          MOTRENEW
000040 INSTALLATION. NORTHERN MUTUAL, MOTOR DEPARTMENT.                 MOTRENEW
000050 DATE-WRITTEN. OCTOBER 1976.                                      MOTRENEW
000060******************************************************************MOTRENEW
000070*    RENEWS THE POLICIES THAT EXPIRE UP TO THE END OF NEXT       *MOTRENEW
000080*    MONTH, FOR A YEAR, AND WRITES A LINE FOR EACH NOTICE. A     *MOTRENEW
000090*    POLICY THAT EXPIRED BEFORE TODAY AND WASN'T RENEWED IN      *MOTRENEW
000100*    TIME HAS LAPSED.                                            *MOTRENEW
000110*    CHANGED  84-03  TARIFF OF 1984                              *MOTRENEW
000120*    CHANGED  93-11  NO SIZE ERROR IN 1999                       *MOTRENEW
000130******************************************************************MOTRENEW
000140 ENVIRONMENT DIVISION.                                            MOTRENEW
000150 CONFIGURATION SECTION.                                           MOTRENEW
000160 SOURCE-COMPUTER. SIEMENS-4004.                                   MOTRENEW
000170 OBJECT-COMPUTER. SIEMENS-4004.                                   MOTRENEW
000180 INPUT-OUTPUT SECTION.                                            MOTRENEW
000190 FILE-CONTROL.                                                    MOTRENEW
000200     SELECT OLD-POLICIES ASSIGN TO POLPAID                        MOTRENEW
000210         FILE STATUS IS OLD-STATUS.                               MOTRENEW
000220     SELECT NEW-POLICIES ASSIGN TO POLNEW                         MOTRENEW
000230         FILE STATUS IS NEW-STATUS.                               MOTRENEW
000240     SELECT NOTICES ASSIGN TO RENLIST.                            MOTRENEW
000250 DATA DIVISION.                                                   MOTRENEW
000260 FILE SECTION.                                                    MOTRENEW
000270 FD  OLD-POLICIES                                                 MOTRENEW
000280     BLOCK CONTAINS 20 RECORDS                                    MOTRENEW
000290     RECORD CONTAINS 110 CHARACTERS                               MOTRENEW
000300     LABEL RECORDS ARE STANDARD                                   MOTRENEW
000310     RECORDING MODE IS F.                                         MOTRENEW
000320     COPY POLREC.                                                 MOTRENEW
000330 FD  NEW-POLICIES                                                 MOTRENEW
000340     BLOCK CONTAINS 20 RECORDS                                    MOTRENEW
000350     RECORD CONTAINS 110 CHARACTERS                               MOTRENEW
000360     LABEL RECORDS ARE STANDARD                                   MOTRENEW
000370     RECORDING MODE IS F.                                         MOTRENEW
000380 01  NEW-POLICY                   PIC X(110).                     MOTRENEW
000390 FD  NOTICES                                                      MOTRENEW
000400     RECORD CONTAINS 80 CHARACTERS                                MOTRENEW
000410     LABEL RECORDS ARE OMITTED.                                   MOTRENEW
000420 01  NOTICE-LINE                  PIC X(80).                      MOTRENEW
000430/                                                                 MOTRENEW
000440 WORKING-STORAGE SECTION.                                         MOTRENEW
000450 77  OLD-STATUS                   PIC XX    VALUE SPACES.         MOTRENEW
000460 77  NEW-STATUS                   PIC XX    VALUE SPACES.         MOTRENEW
000470 77  END-FLAG                     PIC X     VALUE "N".            MOTRENEW
000480     88  END-OF-POLICIES          VALUE "Y".                      MOTRENEW
000490 77  N                            PIC 9     VALUE ZERO.           MOTRENEW
000500 77  MONTHS-APART                 PIC 99    VALUE ZERO.           MOTRENEW
000510 77  AGE                          PIC 99    VALUE ZERO.           MOTRENEW
000520 77  RENEWED                      PIC 9(5)  VALUE ZERO.           MOTRENEW
000530 77  LAPSED                       PIC 9(5)  VALUE ZERO.           MOTRENEW
000540 77  RATE                         PIC S9(5)V99 COMP-3 VALUE ZERO. MOTRENEW
000550 77  DISCOUNT                     PIC S9(5)V99 COMP-3 VALUE ZERO. MOTRENEW
000560*    TODAY, AND THE LAST DAY UP TO WHICH POLICIES ARE RENEWED.    MOTRENEW
000570 01  TODAY                        PIC 9(6).                       MOTRENEW
000580 01  TODAY-PARTS REDEFINES TODAY.                                 MOTRENEW
000590     05  TODAY-YY                 PIC 99.                         MOTRENEW
000600     05  TODAY-MM                 PIC 99.                         MOTRENEW
000610     05  TODAY-DD                 PIC 99.                         MOTRENEW
000620 01  LIMIT-DAY                    PIC 9(6).                       MOTRENEW
000630 01  LIMIT-PARTS REDEFINES LIMIT-DAY.                             MOTRENEW
000640     05  LIMIT-YY                 PIC 99.                         MOTRENEW
000650     05  LIMIT-MM                 PIC 99.                         MOTRENEW
000660     05  LIMIT-DD                 PIC 99.                         MOTRENEW
000670 01  EXPIRY                       PIC 9(6).                       MOTRENEW
000680 01  EXPIRY-PARTS REDEFINES EXPIRY.                               MOTRENEW
000690     05  EXPIRY-YY                PIC 99.                         MOTRENEW
000700     05  EXPIRY-MM                PIC 99.                         MOTRENEW
000710     05  EXPIRY-DD                PIC 99.                         MOTRENEW
000720 01  BIRTH                        PIC 9(6).                       MOTRENEW
000730 01  BIRTH-PARTS REDEFINES BIRTH.                                 MOTRENEW
000740     05  BIRTH-YY                 PIC 99.                         MOTRENEW
000750     05  BIRTH-MMDD               PIC 9(4).                       MOTRENEW
000760 01  DUE-DAY                      PIC 9(6).                       MOTRENEW
000770 01  DUE-PARTS REDEFINES DUE-DAY.                                 MOTRENEW
000780     05  DUE-YY                   PIC 99.                         MOTRENEW
000790     05  DUE-MM                   PIC 99.                         MOTRENEW
000800     05  DUE-DD                   PIC 99.                         MOTRENEW
000810 01  TARIFF-VALUES.                                               MOTRENEW
000820     05  FILLER                   PIC X(7)  VALUE "0032500".      MOTRENEW
000830     05  FILLER                   PIC X(7)  VALUE "0041000".      MOTRENEW
000840     05  FILLER                   PIC X(7)  VALUE "0056000".      MOTRENEW
000850 01  TARIFF-TABLE REDEFINES TARIFF-VALUES.                        MOTRENEW
000860     05  TARIFF                   PIC 9(5)V99 OCCURS 3 TIMES.     MOTRENEW
000870 01  HEADING-LINE.                                                MOTRENEW
000880     05  FILLER                   PIC X(34)                       MOTRENEW
000890         VALUE "MOTRENEW  RENEWAL NOTICES OF".                    MOTRENEW
000900     05  HL-DAY                   PIC 99/99/99.                   MOTRENEW
000910     05  FILLER                   PIC X(38) VALUE SPACES.         MOTRENEW
000920 01  COLUMN-LINE.                                                 MOTRENEW
000930     05  FILLER                   PIC X(34)                       MOTRENEW
000940         VALUE "POLICY   HOLDER             AGE".                 MOTRENEW
000950     05  FILLER                   PIC X(46)                       MOTRENEW
000960         VALUE "    FROM          TO   INST     PREMIUM".         MOTRENEW
000970 01  NOTICE.                                                      MOTRENEW
000980     05  NO-POLICY                PIC X(7).                       MOTRENEW
000990     05  FILLER                   PIC X(2)  VALUE SPACES.         MOTRENEW
001000     05  NO-HOLDER                PIC X(18).                      MOTRENEW
001010     05  FILLER                   PIC X(2)  VALUE SPACES.         MOTRENEW
001020     05  NO-AGE                   PIC Z9.                         MOTRENEW
001030     05  FILLER                   PIC X(3)  VALUE SPACES.         MOTRENEW
001040     05  NO-FROM                  PIC 99/99/99.                   MOTRENEW
001050     05  FILLER                   PIC X(4)  VALUE SPACES.         MOTRENEW
001060     05  NO-TO                    PIC 99/99/99.                   MOTRENEW
001070     05  FILLER                   PIC X(6)  VALUE SPACES.         MOTRENEW
001080     05  NO-INSTALMENTS           PIC 9.                          MOTRENEW
001090     05  FILLER                   PIC X(3)  VALUE SPACES.         MOTRENEW
001100     05  NO-PREMIUM               PIC ZZ,ZZ9.99.                  MOTRENEW
001110     05  NO-REMARK                PIC X(7)  VALUE SPACES.         MOTRENEW
001120/                                                                 MOTRENEW
001130 PROCEDURE DIVISION.                                              MOTRENEW
001140 MAIN-CONTROL.                                                    MOTRENEW
001150     PERFORM BEGIN-RUN.                                           MOTRENEW
001160     PERFORM ONE-POLICY THRU ONE-POLICY-EXIT                      MOTRENEW
001170         UNTIL END-OF-POLICIES.                                   MOTRENEW
001180     DISPLAY "MOTRENEW  RENEWED " RENEWED " LAPSED " LAPSED.      MOTRENEW
001190     CLOSE OLD-POLICIES NEW-POLICIES NOTICES.                     MOTRENEW
001200     STOP RUN.                                                    MOTRENEW
001210*                                                                 MOTRENEW
001220 BEGIN-RUN.                                                       MOTRENEW
001230     OPEN INPUT OLD-POLICIES OUTPUT NEW-POLICIES NOTICES.         MOTRENEW
001240     IF OLD-STATUS NOT = "00" OR NEW-STATUS NOT = "00"            MOTRENEW
001250         DISPLAY "MOTRENEW  CANNOT OPEN " OLD-STATUS NEW-STATUS   MOTRENEW
001260         STOP RUN.                                                MOTRENEW
001270     ACCEPT TODAY FROM DATE.                                      MOTRENEW
001280     MOVE TODAY TO HL-DAY.                                        MOTRENEW
001290     MOVE TODAY TO LIMIT-DAY.                                     MOTRENEW
001300     MOVE 31 TO LIMIT-DD.                                         MOTRENEW
001310     ADD 1 TO LIMIT-MM.                                           MOTRENEW
001320     IF LIMIT-MM > 12                                             MOTRENEW
001330         MOVE 1 TO LIMIT-MM                                       MOTRENEW
001340         ADD 1 TO LIMIT-YY.                                       MOTRENEW
001360     WRITE NOTICE-LINE FROM HEADING-LINE AFTER ADVANCING PAGE.    MOTRENEW
001370     WRITE NOTICE-LINE FROM COLUMN-LINE AFTER ADVANCING 2 LINES.  MOTRENEW
001380     PERFORM READ-POLICY.                                         MOTRENEW
001390*                                                                 MOTRENEW
001400 ONE-POLICY.                                                      MOTRENEW
001410     IF NOT POL-IN-FORCE                                          MOTRENEW
001420         GO TO ONE-POLICY-WRITE.                                  MOTRENEW
001430     IF POL-EXPIRY < TODAY                                        MOTRENEW
001440         MOVE "L" TO POL-STATUS                                   MOTRENEW
001450         ADD 1 TO LAPSED                                          MOTRENEW
001460         GO TO ONE-POLICY-WRITE.                                  MOTRENEW
001470     IF POL-EXPIRY > LIMIT-DAY                                    MOTRENEW
001480         GO TO ONE-POLICY-WRITE.                                  MOTRENEW
001490     PERFORM WORK-OUT-AGE.                                        MOTRENEW
001500     PERFORM RENEW-POLICY.                                        MOTRENEW
001510     PERFORM RATE-POLICY THRU RATE-EXIT.                          MOTRENEW
001520     PERFORM SPREAD-INSTALMENTS.                                  MOTRENEW
001530     PERFORM PRINT-NOTICE.                                        MOTRENEW
001540     ADD 1 TO RENEWED.                                            MOTRENEW
001550 ONE-POLICY-WRITE.                                                MOTRENEW
001560     WRITE NEW-POLICY FROM POLICY-RECORD.                         MOTRENEW
001570     PERFORM READ-POLICY.                                         MOTRENEW
001580 ONE-POLICY-EXIT.                                                 MOTRENEW
001590     EXIT.                                                        MOTRENEW
001600*                                                                 MOTRENEW
001610 WORK-OUT-AGE.                                                    MOTRENEW
001620     MOVE POL-BORN TO BIRTH.                                      MOTRENEW
001630     SUBTRACT BIRTH-YY FROM TODAY-YY GIVING AGE.                  MOTRENEW
001640*                                                                 MOTRENEW
001650 RENEW-POLICY.                                                    MOTRENEW
001660     MOVE POL-EXPIRY TO EXPIRY.                                   MOTRENEW
001670     MOVE EXPIRY TO POL-INCEPTION DUE-DAY.                        MOTRENEW
001680     ADD 1 TO EXPIRY-YY.                                          MOTRENEW
001700     MOVE EXPIRY TO POL-EXPIRY.                                   MOTRENEW
001710     IF POL-FREE-YEARS < 9                                        MOTRENEW
001720         ADD 1 TO POL-FREE-YEARS.                                 MOTRENEW
001730*                                                                 MOTRENEW
001740 RATE-POLICY.                                                     MOTRENEW
001750     IF POL-IS-GOODS                                              MOTRENEW
001760         COMPUTE RATE = TARIFF (3) + 35 * POL-TONS                MOTRENEW
001770         GO TO RATE-DISCOUNT.                                     MOTRENEW
001780     IF POL-ENGINE-CC > 1500                                      MOTRENEW
001790         MOVE TARIFF (2) TO RATE                                  MOTRENEW
001800     ELSE                                                         MOTRENEW
001810         MOVE TARIFF (1) TO RATE.                                 MOTRENEW
001820     IF AGE < 25                                                  MOTRENEW
001830         COMPUTE RATE ROUNDED = RATE * 1.35.                      MOTRENEW
001840 RATE-DISCOUNT.                                                   MOTRENEW
001850     COMPUTE DISCOUNT ROUNDED = RATE * POL-FREE-YEARS * 0.05.     MOTRENEW
001860     SUBTRACT DISCOUNT FROM RATE GIVING POL-PREMIUM.              MOTRENEW
001870 RATE-EXIT.                                                       MOTRENEW
001880     EXIT.                                                        MOTRENEW
001890*                                                                 MOTRENEW
001900*    THE INSTALMENTS ARE 12, 6 OR 3 MONTHS APART.                 MOTRENEW
001910 SPREAD-INSTALMENTS.                                              MOTRENEW
001920     DIVIDE POL-INSTALMENTS INTO 12 GIVING MONTHS-APART.          MOTRENEW
001930     PERFORM SPREAD-ONE VARYING N FROM 1 BY 1 UNTIL N > 4.        MOTRENEW
001940 SPREAD-ONE.                                                      MOTRENEW
001950     IF N > POL-INSTALMENTS                                       MOTRENEW
001960         MOVE ZERO TO INS-DUE (N) INS-PAID (N) INS-AMOUNT (N)     MOTRENEW
001970     ELSE                                                         MOTRENEW
001980         MOVE DUE-DAY TO INS-DUE (N)                              MOTRENEW
001990         MOVE ZERO TO INS-PAID (N)                                MOTRENEW
002000         DIVIDE POL-PREMIUM BY POL-INSTALMENTS                    MOTRENEW
002010             GIVING INS-AMOUNT (N) ROUNDED                        MOTRENEW
002020         ADD MONTHS-APART TO DUE-MM                               MOTRENEW
002030         IF DUE-MM > 12                                           MOTRENEW
002040             SUBTRACT 12 FROM DUE-MM                              MOTRENEW
002050             ADD 1 TO DUE-YY.                                     MOTRENEW
002060*                                                                 MOTRENEW
002070 PRINT-NOTICE.                                                    MOTRENEW
002080     MOVE POL-KEY TO NO-POLICY.                                   MOTRENEW
002090     MOVE POL-HOLDER TO NO-HOLDER.                                MOTRENEW
002100     MOVE AGE TO NO-AGE.                                          MOTRENEW
002110     MOVE POL-INCEPTION TO NO-FROM.                               MOTRENEW
002120     MOVE POL-EXPIRY TO NO-TO.                                    MOTRENEW
002130     MOVE POL-INSTALMENTS TO NO-INSTALMENTS.                      MOTRENEW
002140     MOVE POL-PREMIUM TO NO-PREMIUM.                              MOTRENEW
002150     WRITE NOTICE-LINE FROM NOTICE AFTER ADVANCING 1 LINE.        MOTRENEW
002160*                                                                 MOTRENEW
002170 READ-POLICY.                                                     MOTRENEW
002180     READ OLD-POLICIES                                            MOTRENEW
002190         AT END MOVE "Y" TO END-FLAG.                             MOTRENEW
