000010 IDENTIFICATION DIVISION.                                         MOTSTAT
000020 PROGRAM-ID. MOTSTAT.                                             MOTSTAT
000030 AUTHOR. J VAN DER MEER.                                          MOTSTAT
000040 INSTALLATION. NORTHERN MUTUAL, MOTOR DEPARTMENT.                 MOTSTAT
000050 DATE-WRITTEN. JANUARY 1979.                                      MOTSTAT
000060******************************************************************MOTSTAT
000070*    POLICIES IN FORCE BY THE YEAR IN WHICH THEY BEGAN, WITH     *MOTSTAT
000080*    PREMIUMS, AND BY CLASS.                                     *MOTSTAT
000090******************************************************************MOTSTAT
000100 ENVIRONMENT DIVISION.                                            MOTSTAT
000110 CONFIGURATION SECTION.                                           MOTSTAT
000120 SOURCE-COMPUTER. SIEMENS-4004.                                   MOTSTAT
000130 OBJECT-COMPUTER. SIEMENS-4004.                                   MOTSTAT
000140 INPUT-OUTPUT SECTION.                                            MOTSTAT
000150 FILE-CONTROL.                                                    MOTSTAT
000160     SELECT POLICIES ASSIGN TO POLNEW                             MOTSTAT
000170         FILE STATUS IS POLICY-STATUS.                            MOTSTAT
000180     SELECT STATISTIC ASSIGN TO STATLIST.                         MOTSTAT
000190 DATA DIVISION.                                                   MOTSTAT
000200 FILE SECTION.                                                    MOTSTAT
000210 FD  POLICIES                                                     MOTSTAT
000220     BLOCK CONTAINS 20 RECORDS                                    MOTSTAT
000230     RECORD CONTAINS 110 CHARACTERS                               MOTSTAT
000240     LABEL RECORDS ARE STANDARD                                   MOTSTAT
000250     RECORDING MODE IS F.                                         MOTSTAT
000260     COPY POLREC.                                                 MOTSTAT
000270 FD  STATISTIC                                                    MOTSTAT
000280     RECORD CONTAINS 60 CHARACTERS                                MOTSTAT
000290     LABEL RECORDS ARE OMITTED.                                   MOTSTAT
000300 01  STATISTIC-LINE               PIC X(60).                      MOTSTAT
000310/                                                                 MOTSTAT
000320 WORKING-STORAGE SECTION.                                         MOTSTAT
000330 77  POLICY-STATUS                PIC XX    VALUE SPACES.         MOTSTAT
000340 77  END-FLAG                     PIC X     VALUE "N".            MOTSTAT
000350     88  END-OF-POLICIES          VALUE "Y".                      MOTSTAT
000360 77  SLOT                         PIC 99    VALUE ZERO.           MOTSTAT
000362 77  BASE-YY                      PIC 99    VALUE 70.             MOTSTAT
000364 77  YEARS-ON                     PIC 99    VALUE ZERO.           MOTSTAT
000370 77  OLD-ONES                     PIC 9(5)  VALUE ZERO.           MOTSTAT
000380 01  BEGUN                        PIC 9(6).                       MOTSTAT
000390 01  BEGUN-PARTS REDEFINES BEGUN.                                 MOTSTAT
000400     05  BEGUN-YY                 PIC 99.                         MOTSTAT
000410     05  BEGUN-MMDD               PIC 9(4).                       MOTSTAT
000420 01  YEAR-TABLE.                                                  MOTSTAT
000430     05  YEAR-ENTRY OCCURS 99 TIMES.                              MOTSTAT
000440         10  YEAR-POLICIES        PIC 9(5)       COMP-3.          MOTSTAT
000450         10  YEAR-PREMIUM         PIC S9(7)V99   COMP-3.          MOTSTAT
000460 01  CLASS-TABLE.                                                 MOTSTAT
000470     05  CLASS-ENTRY OCCURS 2 TIMES.                              MOTSTAT
000480         10  CLASS-POLICIES       PIC 9(5)       COMP-3.          MOTSTAT
000490         10  CLASS-PREMIUM        PIC S9(7)V99   COMP-3.          MOTSTAT
000500 01  HEADING-LINE                 PIC X(60)                       MOTSTAT
000510         VALUE "MOTSTAT              POLICIES          PREMIUM".  MOTSTAT
000520 01  YEAR-LINE.                                                   MOTSTAT
000530     05  FILLER                   PIC X(12) VALUE SPACES.         MOTSTAT
000540     05  YL-YEAR                  PIC 99.                         MOTSTAT
000550     05  FILLER                   PIC X(9)  VALUE SPACES.         MOTSTAT
000560     05  YL-POLICIES              PIC ZZ,ZZ9.                     MOTSTAT
000570     05  FILLER                   PIC X(4)  VALUE SPACES.         MOTSTAT
000580     05  YL-PREMIUM               PIC Z,ZZZ,ZZ9.99-.              MOTSTAT
000590     05  FILLER                   PIC X(14) VALUE SPACES.         MOTSTAT
000600 01  CLASS-LINE.                                                  MOTSTAT
000610     05  CL-CLASS                 PIC X(12).                      MOTSTAT
000620     05  FILLER                   PIC X(11) VALUE SPACES.         MOTSTAT
000630     05  CL-POLICIES              PIC ZZ,ZZ9.                     MOTSTAT
000640     05  FILLER                   PIC X(4)  VALUE SPACES.         MOTSTAT
000650     05  CL-PREMIUM               PIC Z,ZZZ,ZZ9.99-.              MOTSTAT
000660     05  FILLER                   PIC X(14) VALUE SPACES.         MOTSTAT
000670/                                                                 MOTSTAT
000680 PROCEDURE DIVISION.                                              MOTSTAT
000690 MAIN-CONTROL.                                                    MOTSTAT
000700     OPEN INPUT POLICIES OUTPUT STATISTIC.                        MOTSTAT
000710     IF POLICY-STATUS NOT = "00"                                  MOTSTAT
000720         DISPLAY "MOTSTAT   CANNOT OPEN " POLICY-STATUS           MOTSTAT
000730         STOP RUN.                                                MOTSTAT
000740     PERFORM CLEAR-YEAR VARYING SLOT FROM 1 BY 1                  MOTSTAT
000750         UNTIL SLOT = 99.                                         MOTSTAT
000760     PERFORM CLEAR-YEAR.                                          MOTSTAT
000770     MOVE ZERO TO CLASS-POLICIES (1) CLASS-PREMIUM (1)            MOTSTAT
000780                  CLASS-POLICIES (2) CLASS-PREMIUM (2).           MOTSTAT
000790     PERFORM READ-POLICY.                                         MOTSTAT
000800     PERFORM COUNT-POLICY THRU COUNT-EXIT                         MOTSTAT
000810         UNTIL END-OF-POLICIES.                                   MOTSTAT
000820     WRITE STATISTIC-LINE FROM HEADING-LINE                       MOTSTAT
000830         AFTER ADVANCING PAGE.                                    MOTSTAT
000840     PERFORM PRINT-YEAR VARYING SLOT FROM 1 BY 1                  MOTSTAT
000850         UNTIL SLOT = 99.                                         MOTSTAT
000860     PERFORM PRINT-YEAR.                                          MOTSTAT
000870     PERFORM PRINT-CLASSES.                                       MOTSTAT
000880     DISPLAY "MOTSTAT   EXPIRED LONG AGO " OLD-ONES.              MOTSTAT
000890     CLOSE POLICIES STATISTIC.                                    MOTSTAT
000900     STOP RUN.                                                    MOTSTAT
000910*                                                                 MOTSTAT
000920 CLEAR-YEAR.                                                      MOTSTAT
000930     MOVE ZERO TO YEAR-POLICIES (SLOT) YEAR-PREMIUM (SLOT).       MOTSTAT
000940*                                                                 MOTSTAT
000950 COUNT-POLICY.                                                    MOTSTAT
000960     IF POL-EXPIRED-LONG-AGO                                      MOTSTAT
000970         ADD 1 TO OLD-ONES                                        MOTSTAT
000980         GO TO COUNT-NEXT.                                        MOTSTAT
000990     IF NOT POL-IN-FORCE                                          MOTSTAT
001000         GO TO COUNT-NEXT.                                        MOTSTAT
001010     MOVE POL-INCEPTION TO BEGUN.                                 MOTSTAT
001011     IF BEGUN-YY < BASE-YY                                        MOTSTAT
001012         MOVE BASE-YY TO BEGUN-YY.                                MOTSTAT
001013     SUBTRACT BASE-YY FROM BEGUN-YY GIVING SLOT.                  MOTSTAT
001014     ADD 1 TO SLOT.                                               MOTSTAT
001020     ADD 1 TO YEAR-POLICIES (SLOT).                               MOTSTAT
001030     ADD POL-PREMIUM TO YEAR-PREMIUM (SLOT).                      MOTSTAT
001040     EVALUATE TRUE                                                MOTSTAT
001050         WHEN POL-IS-PRIVATE                                      MOTSTAT
001060             ADD 1 TO CLASS-POLICIES (1)                          MOTSTAT
001070             ADD POL-PREMIUM TO CLASS-PREMIUM (1)                 MOTSTAT
001080         WHEN POL-IS-GOODS                                        MOTSTAT
001090             ADD 1 TO CLASS-POLICIES (2)                          MOTSTAT
001100             ADD POL-PREMIUM TO CLASS-PREMIUM (2)                 MOTSTAT
001110         WHEN OTHER                                               MOTSTAT
001120             DISPLAY "MOTSTAT   NO CLASS " POL-KEY                MOTSTAT
001130     END-EVALUATE.                                                MOTSTAT
001140 COUNT-NEXT.                                                      MOTSTAT
001150     PERFORM READ-POLICY.                                         MOTSTAT
001160 COUNT-EXIT.                                                      MOTSTAT
001170     EXIT.                                                        MOTSTAT
001180*                                                                 MOTSTAT
001190 PRINT-YEAR.                                                      MOTSTAT
001200     IF YEAR-POLICIES (SLOT) > 0                                  MOTSTAT
001210         SUBTRACT 1 FROM SLOT GIVING YEARS-ON                     MOTSTAT
001215         ADD BASE-YY YEARS-ON GIVING YL-YEAR                      MOTSTAT
001220         MOVE YEAR-POLICIES (SLOT) TO YL-POLICIES                 MOTSTAT
001230         MOVE YEAR-PREMIUM (SLOT) TO YL-PREMIUM                   MOTSTAT
001240         WRITE STATISTIC-LINE FROM YEAR-LINE                      MOTSTAT
001250             AFTER ADVANCING 1 LINE.                              MOTSTAT
001260*                                                                 MOTSTAT
001270 PRINT-CLASSES.                                                   MOTSTAT
001280     MOVE "PRIVATE" TO CL-CLASS.                                  MOTSTAT
001290     MOVE CLASS-POLICIES (1) TO CL-POLICIES.                      MOTSTAT
001300     MOVE CLASS-PREMIUM (1) TO CL-PREMIUM.                        MOTSTAT
001310     WRITE STATISTIC-LINE FROM CLASS-LINE                         MOTSTAT
001320         AFTER ADVANCING 2 LINES.                                 MOTSTAT
001330     MOVE "GOODS" TO CL-CLASS.                                    MOTSTAT
001340     MOVE CLASS-POLICIES (2) TO CL-POLICIES.                      MOTSTAT
001350     MOVE CLASS-PREMIUM (2) TO CL-PREMIUM.                        MOTSTAT
001360     WRITE STATISTIC-LINE FROM CLASS-LINE                         MOTSTAT
001370         AFTER ADVANCING 1 LINE.                                  MOTSTAT
001380*                                                                 MOTSTAT
001390 READ-POLICY.                                                     MOTSTAT
001400     READ POLICIES                                                MOTSTAT
001410         AT END MOVE "Y" TO END-FLAG.                             MOTSTAT
