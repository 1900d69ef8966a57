000010 IDENTIFICATION DIVISION.                                         MOTPAY
000020 PROGRAM-ID. MOTPAY.                                              MOTPAY
000030 AUTHOR. J VAN DER MEER.                                          MOTPAY
000040 INSTALLATION. NORTHERN MUTUAL, MOTOR DEPARTMENT.                 MOTPAY
000050 DATE-WRITTEN. SEPTEMBER 1976.                                    MOTPAY
000060******************************************************************MOTPAY
000070*    POSTS THE PAYMENTS OF THE BANK TAPE TO THE INSTALMENTS OF   *MOTPAY
000080*    THE POLICIES. LISTS PAYMENTS THAT FIT NO INSTALMENT, AND    *MOTPAY
000090*    INSTALMENTS THAT ARE OVERDUE.                               *MOTPAY
000100*    TAPE AND POLICIES ARE IN ORDER OF POLICY; OF ONE POLICY     *MOTPAY
000110*    THE PAYMENTS ARE IN ORDER OF THE DAY ON WHICH THEY ARE DUE. *MOTPAY
000120******************************************************************MOTPAY
000130 ENVIRONMENT DIVISION.                                            MOTPAY
000140 CONFIGURATION SECTION.                                           MOTPAY
000150 SOURCE-COMPUTER. SIEMENS-4004.                                   MOTPAY
000160 OBJECT-COMPUTER. SIEMENS-4004.                                   MOTPAY
000170 INPUT-OUTPUT SECTION.                                            MOTPAY
000180 FILE-CONTROL.                                                    MOTPAY
000190     SELECT OLD-POLICIES ASSIGN TO POLOLD                         MOTPAY
000200         FILE STATUS IS OLD-STATUS.                               MOTPAY
000210     SELECT NEW-POLICIES ASSIGN TO POLPAID                        MOTPAY
000220         FILE STATUS IS NEW-STATUS.                               MOTPAY
000230     SELECT BANK-TAPE ASSIGN TO BANKTAPE                          MOTPAY
000240         FILE STATUS IS TAPE-STATUS.                              MOTPAY
000250     SELECT EXCEPTIONS ASSIGN TO PAYEXC.                          MOTPAY
000260 DATA DIVISION.                                                   MOTPAY
000270 FILE SECTION.                                                    MOTPAY
000280 FD  OLD-POLICIES                                                 MOTPAY
000290     BLOCK CONTAINS 20 RECORDS                                    MOTPAY
000300     RECORD CONTAINS 110 CHARACTERS                               MOTPAY
000310     LABEL RECORDS ARE STANDARD                                   MOTPAY
000320     RECORDING MODE IS F.                                         MOTPAY
000330     COPY POLREC.                                                 MOTPAY
000340 FD  NEW-POLICIES                                                 MOTPAY
000350     BLOCK CONTAINS 20 RECORDS                                    MOTPAY
000360     RECORD CONTAINS 110 CHARACTERS                               MOTPAY
000370     LABEL RECORDS ARE STANDARD                                   MOTPAY
000380     RECORDING MODE IS F.                                         MOTPAY
000390 01  NEW-POLICY                   PIC X(110).                     MOTPAY
000400 FD  BANK-TAPE                                                    MOTPAY
000410     RECORD CONTAINS 20 CHARACTERS                                MOTPAY
000420     LABEL RECORDS ARE STANDARD                                   MOTPAY
000430     RECORDING MODE IS F.                                         MOTPAY
000440     COPY PAYREC.                                                 MOTPAY
000450 FD  EXCEPTIONS                                                   MOTPAY
000460     RECORD CONTAINS 80 CHARACTERS                                MOTPAY
000470     LABEL RECORDS ARE OMITTED.                                   MOTPAY
000480 01  EXCEPTION-LINE               PIC X(80).                      MOTPAY
000490/                                                                 MOTPAY
000500 WORKING-STORAGE SECTION.                                         MOTPAY
000510 77  OLD-STATUS                   PIC XX    VALUE SPACES.         MOTPAY
000520 77  NEW-STATUS                   PIC XX    VALUE SPACES.         MOTPAY
000530 77  TAPE-STATUS                  PIC XX    VALUE SPACES.         MOTPAY
000540 77  POLICY-KEY                   PIC X(7)  VALUE LOW-VALUES.     MOTPAY
000550 77  TAPE-KEY                     PIC X(7)  VALUE LOW-VALUES.     MOTPAY
000560 77  FOUND-FLAG                   PIC X     VALUE "N".            MOTPAY
000570     88  INSTALMENT-FOUND         VALUE "Y".                      MOTPAY
000580 77  N                            PIC 9     VALUE ZERO.           MOTPAY
000590 77  POSTED                       PIC 9(5)  VALUE ZERO.           MOTPAY
000600 77  POSTED-AMOUNT                PIC S9(7)V99 COMP-3 VALUE ZERO. MOTPAY
000610 77  OVERDUE                      PIC 9(5)  VALUE ZERO.           MOTPAY
000620 01  TODAY                        PIC 9(6).                       MOTPAY
000630 01  LAST-KEY.                                                    MOTPAY
000640     05  LAST-POLICY              PIC X(7)  VALUE LOW-VALUES.     MOTPAY
000650     05  LAST-DUE                 PIC 9(6)  COMP-3 VALUE ZERO.    MOTPAY
000660 01  HEADING-LINE.                                                MOTPAY
000670     05  FILLER                   PIC X(28)                       MOTPAY
000680         VALUE "MOTPAY    EXCEPTIONS OF".                         MOTPAY
000690     05  HL-DAY                   PIC 99/99/99.                   MOTPAY
000700     05  FILLER                   PIC X(44) VALUE SPACES.         MOTPAY
000710 01  DETAIL-LINE.                                                 MOTPAY
000720     05  DL-POLICY                PIC X(7).                       MOTPAY
000730     05  FILLER                   PIC X(2)  VALUE SPACES.         MOTPAY
000740     05  DL-HOLDER                PIC X(18).                      MOTPAY
000750     05  FILLER                   PIC X     VALUE SPACE.          MOTPAY
000760     05  DL-DUE                   PIC 99/99/99.                   MOTPAY
000770     05  FILLER                   PIC X(2)  VALUE SPACES.         MOTPAY
000780     05  DL-AMOUNT                PIC ZZ,ZZ9.99-.                 MOTPAY
000790     05  FILLER                   PIC X(2)  VALUE SPACES.         MOTPAY
000800     05  DL-REMARK                PIC X(30).                      MOTPAY
000810/                                                                 MOTPAY
000820 PROCEDURE DIVISION.                                              MOTPAY
000830 MAIN-CONTROL SECTION.                                            MOTPAY
000840 MAIN-1.                                                          MOTPAY
000850     PERFORM BEGIN-RUN.                                           MOTPAY
000860     PERFORM MATCH-ONE THRU MATCH-EXIT                            MOTPAY
000870         UNTIL POLICY-KEY = HIGH-VALUES                           MOTPAY
000880           AND TAPE-KEY = HIGH-VALUES.                            MOTPAY
000890     DISPLAY "MOTPAY    POSTED " POSTED " OVERDUE " OVERDUE.      MOTPAY
000900     CLOSE OLD-POLICIES NEW-POLICIES BANK-TAPE EXCEPTIONS.        MOTPAY
000910     STOP RUN.                                                    MOTPAY
000920*                                                                 MOTPAY
000930 BEGIN-RUN SECTION.                                               MOTPAY
000940 BEGIN-1.                                                         MOTPAY
000950     OPEN INPUT OLD-POLICIES BANK-TAPE                            MOTPAY
000960          OUTPUT NEW-POLICIES EXCEPTIONS.                         MOTPAY
000970     IF OLD-STATUS NOT = "00" OR TAPE-STATUS NOT = "00"           MOTPAY
000980         DISPLAY "MOTPAY    CANNOT OPEN " OLD-STATUS TAPE-STATUS  MOTPAY
000990         STOP RUN.                                                MOTPAY
001000     ACCEPT TODAY FROM DATE.                                      MOTPAY
001010     MOVE TODAY TO HL-DAY.                                        MOTPAY
001020     WRITE EXCEPTION-LINE FROM HEADING-LINE                       MOTPAY
001030         AFTER ADVANCING PAGE.                                    MOTPAY
001040     PERFORM READ-POLICY.                                         MOTPAY
001050     PERFORM READ-TAPE.                                           MOTPAY
001060*                                                                 MOTPAY
001070 MATCH-RUN SECTION.                                               MOTPAY
001080 MATCH-ONE.                                                       MOTPAY
001090     IF POLICY-KEY < TAPE-KEY                                     MOTPAY
001100         PERFORM LOOK-FOR-OVERDUE VARYING N FROM 1 BY 1           MOTPAY
001110             UNTIL N > POL-INSTALMENTS                            MOTPAY
001120         WRITE NEW-POLICY FROM POLICY-RECORD                      MOTPAY
001130         PERFORM READ-POLICY                                      MOTPAY
001140         GO TO MATCH-EXIT.                                        MOTPAY
001150     IF POLICY-KEY > TAPE-KEY                                     MOTPAY
001160         MOVE SPACES TO DL-HOLDER                                 MOTPAY
001170         MOVE "NO SUCH POLICY" TO DL-REMARK                       MOTPAY
001180         PERFORM LIST-PAYMENT                                     MOTPAY
001190         PERFORM READ-TAPE                                        MOTPAY
001200         GO TO MATCH-EXIT.                                        MOTPAY
001210*    A PAYMENT OF THIS POLICY.                                    MOTPAY
001220     MOVE "N" TO FOUND-FLAG.                                      MOTPAY
001230     PERFORM POST-INSTALMENT VARYING N FROM 1 BY 1                MOTPAY
001240         UNTIL N > POL-INSTALMENTS OR INSTALMENT-FOUND.           MOTPAY
001250     IF NOT INSTALMENT-FOUND                                      MOTPAY
001260         MOVE POL-HOLDER TO DL-HOLDER                             MOTPAY
001270         MOVE "NO INSTALMENT OPEN ON THAT DAY" TO DL-REMARK       MOTPAY
001280         PERFORM LIST-PAYMENT.                                    MOTPAY
001290     PERFORM READ-TAPE.                                           MOTPAY
001300 MATCH-EXIT.                                                      MOTPAY
001310     EXIT.                                                        MOTPAY
001320*                                                                 MOTPAY
001330 POST-RUN SECTION.                                                MOTPAY
001340 POST-INSTALMENT.                                                 MOTPAY
001350     IF INS-DUE (N) = PAY-DUE AND INS-PAID (N) = ZERO             MOTPAY
001360         MOVE PAY-DAY TO INS-PAID (N)                             MOTPAY
001370         MOVE "Y" TO FOUND-FLAG                                   MOTPAY
001380         ADD 1 TO POSTED                                          MOTPAY
001390         ADD PAY-AMOUNT TO POSTED-AMOUNT                          MOTPAY
001400         IF PAY-AMOUNT NOT = INS-AMOUNT (N)                       MOTPAY
001410             MOVE POL-HOLDER TO DL-HOLDER                         MOTPAY
001420             MOVE "AMOUNT DIFFERS" TO DL-REMARK                   MOTPAY
001430             PERFORM LIST-PAYMENT.                                MOTPAY
001440 LIST-PAYMENT.                                                    MOTPAY
001450     MOVE PAY-POLICY TO DL-POLICY.                                MOTPAY
001460     MOVE PAY-DUE TO DL-DUE.                                      MOTPAY
001470     MOVE PAY-AMOUNT TO DL-AMOUNT.                                MOTPAY
001480     WRITE EXCEPTION-LINE FROM DETAIL-LINE                        MOTPAY
001490         AFTER ADVANCING 1 LINE.                                  MOTPAY
001500 LOOK-FOR-OVERDUE.                                                MOTPAY
001510     IF POL-IN-FORCE AND INS-PAID (N) = ZERO                      MOTPAY
001520             AND INS-DUE (N) < TODAY                              MOTPAY
001530         ADD 1 TO OVERDUE                                         MOTPAY
001540         MOVE POL-KEY TO DL-POLICY                                MOTPAY
001550         MOVE POL-HOLDER TO DL-HOLDER                             MOTPAY
001560         MOVE INS-DUE (N) TO DL-DUE                               MOTPAY
001570         MOVE INS-AMOUNT (N) TO DL-AMOUNT                         MOTPAY
001580         MOVE "OVERDUE" TO DL-REMARK                              MOTPAY
001590         WRITE EXCEPTION-LINE FROM DETAIL-LINE                    MOTPAY
001600             AFTER ADVANCING 1 LINE.                              MOTPAY
001610*                                                                 MOTPAY
001620 READ-RUN SECTION.                                                MOTPAY
001630 READ-POLICY.                                                     MOTPAY
001640     READ OLD-POLICIES                                            MOTPAY
001650         AT END MOVE HIGH-VALUES TO POLICY-KEY.                   MOTPAY
001660     IF POLICY-KEY NOT = HIGH-VALUES                              MOTPAY
001670         MOVE POL-KEY TO POLICY-KEY.                              MOTPAY
001680 READ-TAPE.                                                       MOTPAY
001690     READ BANK-TAPE                                               MOTPAY
001700         AT END MOVE HIGH-VALUES TO TAPE-KEY.                     MOTPAY
001710     IF TAPE-KEY NOT = HIGH-VALUES                                MOTPAY
001720         MOVE PAY-POLICY TO TAPE-KEY                              MOTPAY
001730         IF PAY-POLICY < LAST-POLICY                              MOTPAY
001732                 OR (PAY-POLICY = LAST-POLICY                     MOTPAY
001734                 AND PAY-DUE < LAST-DUE)                          MOTPAY
001740             DISPLAY "MOTPAY    TAPE OUT OF ORDER " PAY-POLICY    MOTPAY
001750             STOP RUN                                             MOTPAY
001760         ELSE                                                     MOTPAY
001770             MOVE PAY-KEY TO LAST-KEY.                            MOTPAY
