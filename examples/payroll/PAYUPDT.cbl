000010 IDENTIFICATION DIVISION.                                         PAYUPDT
000020 PROGRAM-ID. PAYUPDT.                                             PAYUPDT
000030 AUTHOR. R T HOLLOWAY.                                            PAYUPDT
000040 INSTALLATION. COUNTY TREASURERS DEPARTMENT.                      PAYUPDT
000050 DATE-WRITTEN. APRIL 1978.                                        PAYUPDT
000060******************************************************************PAYUPDT
000070*    UPDATES THE EMPLOYEE MASTER WITH THE EDITED CARDS. BOTH     *PAYUPDT
000080*    FILES ARE IN ORDER OF EMPLOYEE NUMBER.                      *PAYUPDT
000090*    CHANGED  11/83  CONTRACTS WITH AN END            (D. MARSH) *PAYUPDT
000100*    CHANGED  06/91  RISE MONTH TAKEN FROM THE CARD   (D. MARSH) *PAYUPDT
000110******************************************************************PAYUPDT
000120 ENVIRONMENT DIVISION.                                            PAYUPDT
000130 CONFIGURATION SECTION.                                           PAYUPDT
000140 SOURCE-COMPUTER. IBM-370.                                        PAYUPDT
000150 OBJECT-COMPUTER. IBM-370.                                        PAYUPDT
000160 INPUT-OUTPUT SECTION.                                            PAYUPDT
000170 FILE-CONTROL.                                                    PAYUPDT
000180     SELECT OLD-MASTER ASSIGN TO EMPOLD                           PAYUPDT
000190         FILE STATUS IS OLD-STATUS.                               PAYUPDT
000200     SELECT NEW-MASTER ASSIGN TO EMPNEW                           PAYUPDT
000210         FILE STATUS IS NEW-STATUS.                               PAYUPDT
000220     SELECT CARD-FILE ASSIGN TO GOODTRN                           PAYUPDT
000230         FILE STATUS IS CARD-STATUS.                              PAYUPDT
000240 DATA DIVISION.                                                   PAYUPDT
000250 FILE SECTION.                                                    PAYUPDT
000260 FD  OLD-MASTER                                                   PAYUPDT
000270     LABEL RECORDS ARE STANDARD                                   PAYUPDT
000280     BLOCK CONTAINS 0 RECORDS                                     PAYUPDT
000290     RECORD CONTAINS 80 CHARACTERS                                PAYUPDT
000300     DATA RECORD IS OLD-EMPLOYEE.                                 PAYUPDT
000310     COPY EMPREC REPLACING EMPLOYEE-RECORD BY OLD-EMPLOYEE.       PAYUPDT
000320 FD  NEW-MASTER                                                   PAYUPDT
000330     LABEL RECORDS ARE STANDARD                                   PAYUPDT
000340     BLOCK CONTAINS 0 RECORDS                                     PAYUPDT
000350     RECORD CONTAINS 80 CHARACTERS                                PAYUPDT
000360     DATA RECORD IS NEW-EMPLOYEE.                                 PAYUPDT
000370     COPY EMPREC REPLACING EMPLOYEE-RECORD BY NEW-EMPLOYEE.       PAYUPDT
000380 FD  CARD-FILE                                                    PAYUPDT
000390     LABEL RECORDS ARE STANDARD                                   PAYUPDT
000400     BLOCK CONTAINS 0 RECORDS                                     PAYUPDT
000410     RECORD CONTAINS 80 CHARACTERS.                               PAYUPDT
000420     COPY TRNREC.                                                 PAYUPDT
000430/                                                                 PAYUPDT
000440 WORKING-STORAGE SECTION.                                         PAYUPDT
000450 77  OLD-STATUS                   PIC XX    VALUE SPACES.         PAYUPDT
000460 77  NEW-STATUS                   PIC XX    VALUE SPACES.         PAYUPDT
000470 77  CARD-STATUS                  PIC XX    VALUE SPACES.         PAYUPDT
000480 77  OLD-KEY                      PIC X(5)  VALUE LOW-VALUES.     PAYUPDT
000490 77  CARD-KEY                     PIC X(5)  VALUE LOW-VALUES.     PAYUPDT
000500 77  LAST-KEY                     PIC X(5)  VALUE LOW-VALUES.     PAYUPDT
000510 01  COUNTS.                                                      PAYUPDT
000520     05  COPIED                   PIC 9(5)  VALUE ZERO.           PAYUPDT
000530     05  CHANGED                  PIC 9(5)  VALUE ZERO.           PAYUPDT
000540     05  HIRED                    PIC 9(5)  VALUE ZERO.           PAYUPDT
000550     05  UNMATCHED                PIC 9(5)  VALUE ZERO.           PAYUPDT
000560/                                                                 PAYUPDT
000570 PROCEDURE DIVISION.                                              PAYUPDT
000580 0000-MAIN SECTION.                                               PAYUPDT
000590 0010-BEGIN.                                                      PAYUPDT
000600     PERFORM 1000-OPEN-FILES.                                     PAYUPDT
000610     PERFORM 8000-READ-OLD.                                       PAYUPDT
000620     PERFORM 8100-READ-CARD.                                      PAYUPDT
000630     PERFORM 2000-MATCH                                           PAYUPDT
000640         UNTIL OLD-KEY = HIGH-VALUES AND CARD-KEY = HIGH-VALUES.  PAYUPDT
000650     DISPLAY "PAYUPDT  COPIED " COPIED "  CHANGED " CHANGED       PAYUPDT
000660         "  HIRED " HIRED "  UNMATCHED " UNMATCHED.               PAYUPDT
000670     CLOSE OLD-MASTER NEW-MASTER CARD-FILE.                       PAYUPDT
000680     STOP RUN.                                                    PAYUPDT
000690*                                                                 PAYUPDT
000700 1000-OPEN-FILES SECTION.                                         PAYUPDT
000710 1010-OPEN.                                                       PAYUPDT
000720     OPEN INPUT OLD-MASTER CARD-FILE                              PAYUPDT
000730          OUTPUT NEW-MASTER.                                      PAYUPDT
000740     IF OLD-STATUS NOT = "00" OR CARD-STATUS NOT = "00"           PAYUPDT
000750             OR NEW-STATUS NOT = "00"                             PAYUPDT
000760         DISPLAY "PAYUPDT  OPEN, STATUS " OLD-STATUS " "          PAYUPDT
000770             CARD-STATUS " " NEW-STATUS                           PAYUPDT
000780         STOP RUN.                                                PAYUPDT
000790*                                                                 PAYUPDT
000800*    A CARD WITHOUT AN EMPLOYEE MUST BE THAT OF ONE HIRED.        PAYUPDT
000810 2000-MATCH SECTION.                                              PAYUPDT
000820 2010-COMPARE.                                                    PAYUPDT
000830     IF OLD-KEY < CARD-KEY                                        PAYUPDT
000840         PERFORM 3000-WRITE-OLD                                   PAYUPDT
000850     ELSE                                                         PAYUPDT
000860         IF OLD-KEY = CARD-KEY                                    PAYUPDT
000870             PERFORM 4000-CHANGE-OLD                              PAYUPDT
000880         ELSE                                                     PAYUPDT
000890             PERFORM 5000-HIRE-NEW.                               PAYUPDT
000900*                                                                 PAYUPDT
000910 3000-WRITE-OLD SECTION.                                          PAYUPDT
000920 3010-COPY.                                                       PAYUPDT
000930     IF OLD-KEY NOT = LAST-KEY                                    PAYUPDT
000940         MOVE OLD-EMPLOYEE TO NEW-EMPLOYEE                        PAYUPDT
000950         WRITE NEW-EMPLOYEE                                       PAYUPDT
000960         ADD 1 TO COPIED.                                         PAYUPDT
000970     PERFORM 8000-READ-OLD.                                       PAYUPDT
000980*                                                                 PAYUPDT
000990 4000-CHANGE-OLD SECTION.                                         PAYUPDT
001000 4010-BY-CODE.                                                    PAYUPDT
001010     EVALUATE TRN-CODE                                            PAYUPDT
001020         WHEN "C"                                                 PAYUPDT
001030             PERFORM 4100-CHANGE-FIELDS                           PAYUPDT
001040         WHEN "X"                                                 PAYUPDT
001050             MOVE "X" TO EMP-STATUS OF OLD-EMPLOYEE               PAYUPDT
001060         WHEN OTHER                                               PAYUPDT
001070             ADD 1 TO UNMATCHED                                   PAYUPDT
001080             DISPLAY "PAYUPDT  ALREADY HIRED " TRN-NUMBER         PAYUPDT
001090     END-EVALUATE.                                                PAYUPDT
001100     ADD 1 TO CHANGED.                                            PAYUPDT
001110     PERFORM 8100-READ-CARD.                                      PAYUPDT
001120*                                                                 PAYUPDT
001130 4100-CHANGE-FIELDS SECTION.                                      PAYUPDT
001140 4110-NAME.                                                       PAYUPDT
001150     IF TRN-SURNAME NOT = SPACES                                  PAYUPDT
001160         MOVE TRN-SURNAME TO EMP-SURNAME OF OLD-EMPLOYEE.         PAYUPDT
001170     IF TRN-DEPARTMENT NOT = SPACES                               PAYUPDT
001180         MOVE TRN-DEPARTMENT TO EMP-DEPARTMENT OF OLD-EMPLOYEE.   PAYUPDT
001190     IF TRN-GRADE NUMERIC                                         PAYUPDT
001200         MOVE TRN-GRADE TO EMP-GRADE OF OLD-EMPLOYEE.             PAYUPDT
001210 4120-DATES.                                                      PAYUPDT
001220     IF TRN-CONTRACT-END NUMERIC                                  PAYUPDT
001230         MOVE TRN-CONTRACT-END                                    PAYUPDT
001240             TO EMP-CONTRACT-END OF OLD-EMPLOYEE.                 PAYUPDT
001250 4130-PAY.                                                        PAYUPDT
001260     IF TRN-SALARY NUMERIC                                        PAYUPDT
001270         MOVE TRN-SALARY TO EMP-SALARY OF OLD-EMPLOYEE            PAYUPDT
001280         MOVE TRN-RISE-MONTH TO EMP-RISE-MONTH OF OLD-EMPLOYEE.   PAYUPDT
001290     IF TRN-LEAVE-DAYS NUMERIC                                    PAYUPDT
001300         MOVE TRN-LEAVE-DAYS TO EMP-LEAVE-DAYS OF OLD-EMPLOYEE.   PAYUPDT
001310*                                                                 PAYUPDT
001320 5000-HIRE-NEW SECTION.                                           PAYUPDT
001330 5010-TEST.                                                       PAYUPDT
001340     IF TRN-HIRED AND CARD-KEY NOT = LAST-KEY                     PAYUPDT
001350         PERFORM 5100-BUILD                                       PAYUPDT
001360     ELSE                                                         PAYUPDT
001370         ADD 1 TO UNMATCHED                                       PAYUPDT
001380         DISPLAY "PAYUPDT  NO SUCH EMPLOYEE " TRN-NUMBER.         PAYUPDT
001390     PERFORM 8100-READ-CARD.                                      PAYUPDT
001400*                                                                 PAYUPDT
001410 5100-BUILD SECTION.                                              PAYUPDT
001420 5110-FIELDS.                                                     PAYUPDT
001430     MOVE SPACES TO NEW-EMPLOYEE.                                 PAYUPDT
001440     MOVE TRN-NUMBER TO EMP-NUMBER OF NEW-EMPLOYEE.               PAYUPDT
001450     MOVE TRN-SURNAME TO EMP-SURNAME OF NEW-EMPLOYEE.             PAYUPDT
001460     MOVE TRN-FORENAME TO EMP-FORENAME OF NEW-EMPLOYEE.           PAYUPDT
001470     MOVE TRN-DEPARTMENT TO EMP-DEPARTMENT OF NEW-EMPLOYEE.       PAYUPDT
001480     MOVE TRN-GRADE TO EMP-GRADE OF NEW-EMPLOYEE.                 PAYUPDT
001490     MOVE TRN-BIRTH-DATE TO EMP-BIRTH-DATE OF NEW-EMPLOYEE.       PAYUPDT
001500     MOVE TRN-HIRE-DATE TO EMP-HIRE-DATE OF NEW-EMPLOYEE.         PAYUPDT
001510     IF TRN-CONTRACT-END NUMERIC                                  PAYUPDT
001520         MOVE TRN-CONTRACT-END                                    PAYUPDT
001530             TO EMP-CONTRACT-END OF NEW-EMPLOYEE                  PAYUPDT
001540     ELSE                                                         PAYUPDT
001550         MOVE 999999 TO EMP-CONTRACT-END OF NEW-EMPLOYEE.         PAYUPDT
001560     MOVE TRN-RISE-MONTH TO EMP-RISE-MONTH OF NEW-EMPLOYEE.       PAYUPDT
001570     MOVE "A" TO EMP-STATUS OF NEW-EMPLOYEE.                      PAYUPDT
001580     MOVE TRN-SALARY TO EMP-SALARY OF NEW-EMPLOYEE.               PAYUPDT
001590     MOVE TRN-LEAVE-DAYS TO EMP-LEAVE-DAYS OF NEW-EMPLOYEE.       PAYUPDT
001600     WRITE NEW-EMPLOYEE.                                          PAYUPDT
001610     MOVE CARD-KEY TO LAST-KEY.                                   PAYUPDT
001620     ADD 1 TO HIRED.                                              PAYUPDT
001630*                                                                 PAYUPDT
001640 8000-READ-OLD SECTION.                                           PAYUPDT
001650 8010-READ.                                                       PAYUPDT
001660     READ OLD-MASTER                                              PAYUPDT
001670         AT END MOVE HIGH-VALUES TO OLD-KEY                       PAYUPDT
001680         NOT AT END MOVE EMP-NUMBER OF OLD-EMPLOYEE TO OLD-KEY    PAYUPDT
001690     END-READ.                                                    PAYUPDT
001700*                                                                 PAYUPDT
001710 8100-READ-CARD SECTION.                                          PAYUPDT
001720 8110-READ.                                                       PAYUPDT
001730     READ CARD-FILE                                               PAYUPDT
001740         AT END MOVE HIGH-VALUES TO CARD-KEY                      PAYUPDT
001750         NOT AT END MOVE TRN-NUMBER TO CARD-KEY                   PAYUPDT
001760     END-READ.                                                    PAYUPDT
