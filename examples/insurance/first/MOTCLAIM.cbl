000010 IDENTIFICATION DIVISION.                                         MOTCLAIM
000020 PROGRAM-ID. MOTCLAIM.                                            MOTCLAIM
000030 AUTHOR. K OLSEN.                                                 MOTCLAIM
000040 INSTALLATION. NORTHERN MUTUAL, MOTOR DEPARTMENT.                 MOTCLAIM
000050 DATE-WRITTEN. FEBRUARY 1981.                                     MOTCLAIM
000060******************************************************************MOTCLAIM
000070*    TAKES THE NEW CLAIMS OF THE BRANCHES INTO THE REGISTER AND  *MOTCLAIM
000080*    NUMBERS THEM. LISTS THEM, THOSE REPORTED MORE THAN THIRTY   *MOTCLAIM
000090*    DAYS AFTER THE LOSS AS LATE.                                *MOTCLAIM
000100******************************************************************MOTCLAIM
000110 ENVIRONMENT DIVISION.                                            MOTCLAIM
000120 CONFIGURATION SECTION.                                           MOTCLAIM
000130 SOURCE-COMPUTER. SIEMENS-7500.                                   MOTCLAIM
000140 OBJECT-COMPUTER. SIEMENS-7500.                                   MOTCLAIM
000150 INPUT-OUTPUT SECTION.                                            MOTCLAIM
000160 FILE-CONTROL.                                                    MOTCLAIM
000170     SELECT OLD-REGISTER ASSIGN TO CLMOLD                         MOTCLAIM
000180         FILE STATUS IS OLD-STATUS.                               MOTCLAIM
000190     SELECT NEW-REGISTER ASSIGN TO CLMNEW                         MOTCLAIM
000200         FILE STATUS IS NEW-STATUS.                               MOTCLAIM
000210     SELECT NEW-CLAIMS ASSIGN TO NEWCLM                           MOTCLAIM
000220         FILE STATUS IS CLAIM-STATUS.                             MOTCLAIM
000230     SELECT CLAIM-LIST ASSIGN TO CLMLIST.                         MOTCLAIM
000240 DATA DIVISION.                                                   MOTCLAIM
000250 FILE SECTION.                                                    MOTCLAIM
000260 FD  OLD-REGISTER                                                 MOTCLAIM
000270     RECORD CONTAINS 50 CHARACTERS                                MOTCLAIM
000280     LABEL RECORDS ARE STANDARD                                   MOTCLAIM
000290     RECORDING MODE IS F.                                         MOTCLAIM
000300     COPY CLMREC REPLACING ==CLAIM-RECORD== BY ==OLD-CLAIM==.     MOTCLAIM
000310 FD  NEW-REGISTER                                                 MOTCLAIM
000320     RECORD CONTAINS 50 CHARACTERS                                MOTCLAIM
000330     LABEL RECORDS ARE STANDARD                                   MOTCLAIM
000340     RECORDING MODE IS F.                                         MOTCLAIM
000350     COPY CLMREC.                                                 MOTCLAIM
000360 FD  NEW-CLAIMS                                                   MOTCLAIM
000370     RECORD CONTAINS 50 CHARACTERS                                MOTCLAIM
000380     LABEL RECORDS ARE STANDARD                                   MOTCLAIM
000390     RECORDING MODE IS F.                                         MOTCLAIM
000400     COPY NEWCLM.                                                 MOTCLAIM
000410 FD  CLAIM-LIST                                                   MOTCLAIM
000420     RECORD CONTAINS 80 CHARACTERS                                MOTCLAIM
000430     LABEL RECORDS ARE OMITTED.                                   MOTCLAIM
000440 01  LIST-LINE                    PIC X(80).                      MOTCLAIM
000450/                                                                 MOTCLAIM
000460 WORKING-STORAGE SECTION.                                         MOTCLAIM
000470 77  OLD-STATUS                   PIC XX    VALUE SPACES.         MOTCLAIM
000480 77  NEW-STATUS                   PIC XX    VALUE SPACES.         MOTCLAIM
000490 77  CLAIM-STATUS                 PIC XX    VALUE SPACES.         MOTCLAIM
000500 77  OLD-END                      PIC X     VALUE "N".            MOTCLAIM
000510     88  OLD-AT-END               VALUE "Y".                      MOTCLAIM
000520 77  CLAIM-END                    PIC X     VALUE "N".            MOTCLAIM
000530     88  CLAIMS-AT-END            VALUE "Y".                      MOTCLAIM
000540 77  LAST-SERIAL                  PIC 9(4)  VALUE ZERO.           MOTCLAIM
000550 77  OPEN-OLD                     PIC 9(5)  VALUE ZERO.           MOTCLAIM
000560 77  TAKEN                        PIC 9(5)  VALUE ZERO.           MOTCLAIM
000570 77  LATE-ONES                    PIC 9(5)  VALUE ZERO.           MOTCLAIM
000580 77  DAYS-LATE                    PIC S9(5) VALUE ZERO.           MOTCLAIM
000590*    DAYS ARE YYDDD.                                              MOTCLAIM
000600 01  TODAY                        PIC 9(5).                       MOTCLAIM
000610 01  TODAY-PARTS REDEFINES TODAY.                                 MOTCLAIM
000620     05  TODAY-YY                 PIC 99.                         MOTCLAIM
000630     05  TODAY-DDD                PIC 999.                        MOTCLAIM
000640 01  HEADING-LINE.                                                MOTCLAIM
000650     05  FILLER                   PIC X(28)                       MOTCLAIM
000660         VALUE "          NEW CLAIMS OF".                         MOTCLAIM
000670     05  HL-DAY                   PIC 99/999.                     MOTCLAIM
000680     05  FILLER                   PIC X(46) VALUE SPACES.         MOTCLAIM
000690 01  DETAIL-LINE.                                                 MOTCLAIM
000700     05  DL-BRANCH                PIC XX.                         MOTCLAIM
000710     05  FILLER                   PIC X     VALUE "/".            MOTCLAIM
000720     05  DL-YEAR                  PIC 99.                         MOTCLAIM
000730     05  FILLER                   PIC X     VALUE "/".            MOTCLAIM
000740     05  DL-SERIAL                PIC 9(4).                       MOTCLAIM
000750     05  FILLER                   PIC X(3)  VALUE SPACES.         MOTCLAIM
000760     05  DL-POLICY                PIC X(7).                       MOTCLAIM
000770     05  FILLER                   PIC X(3)  VALUE SPACES.         MOTCLAIM
000780     05  DL-KIND                  PIC X.                          MOTCLAIM
000790     05  FILLER                   PIC X(4)  VALUE SPACES.         MOTCLAIM
000800     05  DL-LOSS                  PIC 99/999.                     MOTCLAIM
000810     05  FILLER                   PIC X(2)  VALUE SPACES.         MOTCLAIM
000820     05  DL-DAYS                  PIC ZZ,ZZ9-.                    MOTCLAIM
000830     05  FILLER                   PIC X(2)  VALUE SPACES.         MOTCLAIM
000840     05  DL-ESTIMATE              PIC Z,ZZZ,ZZ9.99.               MOTCLAIM
000850     05  FILLER                   PIC X(2)  VALUE SPACES.         MOTCLAIM
000860     05  DL-DETAIL                PIC X(16).                      MOTCLAIM
000870     05  FILLER                   PIC X     VALUE SPACE.          MOTCLAIM
000880     05  DL-LATE                  PIC X(4).                       MOTCLAIM
000890/                                                                 MOTCLAIM
000900 PROCEDURE DIVISION.                                              MOTCLAIM
000910 MAIN-CONTROL SECTION.                                            MOTCLAIM
000920 MAIN-1.                                                          MOTCLAIM
000930     PERFORM OPEN-ALL.                                            MOTCLAIM
000940     PERFORM COPY-REGISTER UNTIL OLD-AT-END.                      MOTCLAIM
000950     PERFORM TAKE-CLAIM UNTIL CLAIMS-AT-END.                      MOTCLAIM
000960     DISPLAY "MOTCLAIM  OPEN " OPEN-OLD " TAKEN " TAKEN           MOTCLAIM
000970         " LATE " LATE-ONES " LAST " CLM-NUMBER OF CLAIM-RECORD.  MOTCLAIM
000980     CLOSE OLD-REGISTER NEW-REGISTER NEW-CLAIMS CLAIM-LIST.       MOTCLAIM
000990     STOP RUN.                                                    MOTCLAIM
001000*                                                                 MOTCLAIM
001010 OPEN-ALL SECTION.                                                MOTCLAIM
001020 OPEN-1.                                                          MOTCLAIM
001030     OPEN INPUT OLD-REGISTER.                                     MOTCLAIM
001040     IF OLD-STATUS = "35"                                         MOTCLAIM
001050         DISPLAY "MOTCLAIM  THE REGISTER IS NEW"                  MOTCLAIM
001060         MOVE "Y" TO OLD-END                                      MOTCLAIM
001070     ELSE                                                         MOTCLAIM
001080         IF OLD-STATUS NOT = "00"                                 MOTCLAIM
001090             DISPLAY "MOTCLAIM  CANNOT OPEN " OLD-STATUS          MOTCLAIM
001100             STOP RUN.                                            MOTCLAIM
001110 OPEN-2.                                                          MOTCLAIM
001120     OPEN INPUT NEW-CLAIMS OUTPUT NEW-REGISTER CLAIM-LIST.        MOTCLAIM
001130     IF CLAIM-STATUS NOT = "00"                                   MOTCLAIM
001140         MOVE "Y" TO CLAIM-END.                                   MOTCLAIM
001150     ACCEPT TODAY FROM DAY.                                       MOTCLAIM
001160     MOVE TODAY TO HL-DAY.                                        MOTCLAIM
001170     WRITE LIST-LINE FROM HEADING-LINE AFTER ADVANCING PAGE.      MOTCLAIM
001180     IF NOT OLD-AT-END                                            MOTCLAIM
001190         PERFORM READ-OLD.                                        MOTCLAIM
001200     IF NOT CLAIMS-AT-END                                         MOTCLAIM
001210         PERFORM READ-CLAIM.                                      MOTCLAIM
001220*                                                                 MOTCLAIM
001230 COPY-REGISTER SECTION.                                           MOTCLAIM
001240 COPY-1.                                                          MOTCLAIM
001250     IF CLM-OPEN OF OLD-CLAIM                                     MOTCLAIM
001260         ADD 1 TO OPEN-OLD.                                       MOTCLAIM
001270     IF CLM-YEAR OF OLD-CLAIM = TODAY-YY                          MOTCLAIM
001280             AND CLM-SERIAL OF OLD-CLAIM > LAST-SERIAL            MOTCLAIM
001290         MOVE CLM-SERIAL OF OLD-CLAIM TO LAST-SERIAL.             MOTCLAIM
001300     WRITE CLAIM-RECORD FROM OLD-CLAIM.                           MOTCLAIM
001310     PERFORM READ-OLD.                                            MOTCLAIM
001320*                                                                 MOTCLAIM
001330 TAKE-CLAIM SECTION.                                              MOTCLAIM
001340 TAKE-1.                                                          MOTCLAIM
001350     ADD 1 TO LAST-SERIAL TAKEN.                                  MOTCLAIM
001360     MOVE SPACES TO CLAIM-RECORD.                                 MOTCLAIM
001370     MOVE NC-BRANCH TO CLM-BRANCH OF CLAIM-RECORD.                MOTCLAIM
001380     MOVE TODAY-YY TO CLM-YEAR OF CLAIM-RECORD.                   MOTCLAIM
001390     MOVE LAST-SERIAL TO CLM-SERIAL OF CLAIM-RECORD.              MOTCLAIM
001400     MOVE NC-POLICY TO CLM-POLICY OF CLAIM-RECORD.                MOTCLAIM
001410     MOVE NC-LOSS-DAY TO CLM-LOSS-DAY OF CLAIM-RECORD.            MOTCLAIM
001420     MOVE TODAY TO CLM-REPORT-DAY OF CLAIM-RECORD.                MOTCLAIM
001430     MOVE NC-KIND TO CLM-KIND OF CLAIM-RECORD.                    MOTCLAIM
001440     MOVE NC-DETAIL TO CLM-DETAIL OF CLAIM-RECORD.                MOTCLAIM
001450     MOVE NC-ESTIMATE TO CLM-ESTIMATE OF CLAIM-RECORD.            MOTCLAIM
001460     MOVE "O" TO CLM-STATE OF CLAIM-RECORD.                       MOTCLAIM
001470     WRITE CLAIM-RECORD.                                          MOTCLAIM
001480 TAKE-2.                                                          MOTCLAIM
001490     SUBTRACT CLM-LOSS-DAY OF CLAIM-RECORD FROM TODAY             MOTCLAIM
001500         GIVING DAYS-LATE.                                        MOTCLAIM
001510     IF DAYS-LATE > 30                                            MOTCLAIM
001520         MOVE "LATE" TO DL-LATE                                   MOTCLAIM
001530         ADD 1 TO LATE-ONES                                       MOTCLAIM
001540     ELSE                                                         MOTCLAIM
001550         MOVE SPACES TO DL-LATE.                                  MOTCLAIM
001560 TAKE-3.                                                          MOTCLAIM
001570     MOVE CLM-BRANCH OF CLAIM-RECORD TO DL-BRANCH.                MOTCLAIM
001580     MOVE CLM-YEAR OF CLAIM-RECORD TO DL-YEAR.                    MOTCLAIM
001590     MOVE CLM-SERIAL OF CLAIM-RECORD TO DL-SERIAL.                MOTCLAIM
001600     MOVE CLM-POLICY OF CLAIM-RECORD TO DL-POLICY.                MOTCLAIM
001610     MOVE CLM-KIND OF CLAIM-RECORD TO DL-KIND.                    MOTCLAIM
001620     MOVE CLM-LOSS-DAY OF CLAIM-RECORD TO DL-LOSS.                MOTCLAIM
001630     MOVE DAYS-LATE TO DL-DAYS.                                   MOTCLAIM
001640     MOVE CLM-ESTIMATE OF CLAIM-RECORD TO DL-ESTIMATE.            MOTCLAIM
001650     IF CLM-IS-THEFT OF CLAIM-RECORD                              MOTCLAIM
001660         MOVE CLM-POLICE-NUMBER OF CLAIM-RECORD TO DL-DETAIL      MOTCLAIM
001670     ELSE                                                         MOTCLAIM
001680         MOVE CLM-DETAIL OF CLAIM-RECORD TO DL-DETAIL.            MOTCLAIM
001690     WRITE LIST-LINE FROM DETAIL-LINE AFTER ADVANCING 1 LINE.     MOTCLAIM
001700     PERFORM READ-CLAIM.                                          MOTCLAIM
001710*                                                                 MOTCLAIM
001720 READING SECTION.                                                 MOTCLAIM
001730 READ-OLD.                                                        MOTCLAIM
001740     READ OLD-REGISTER                                            MOTCLAIM
001750         AT END MOVE "Y" TO OLD-END.                              MOTCLAIM
001760 READ-CLAIM.                                                      MOTCLAIM
001770     READ NEW-CLAIMS                                              MOTCLAIM
001780         AT END MOVE "Y" TO CLAIM-END.                            MOTCLAIM
