       IDENTIFICATION DIVISION.
       PROGRAM-ID. PAYENDS.
       AUTHOR. D MARSH.
       DATE-WRITTEN. DECEMBER 1983.
      *    LISTS THE CONTRACTS THAT HAVE RUN OUT AND THOSE THAT END
      *    WITHIN THREE MONTHS.
       ENVIRONMENT DIVISION.
       INPUT-OUTPUT SECTION.
       FILE-CONTROL.
           SELECT MASTER-FILE ASSIGN TO EMPNEW
               FILE STATUS IS MASTER-STATUS.
           SELECT ENDS-FILE ASSIGN TO ENDS.
       DATA DIVISION.
       FILE SECTION.
       FD  MASTER-FILE
           LABEL RECORDS ARE STANDARD
           RECORD CONTAINS 80 CHARACTERS.
           COPY EMPREC.
       FD  ENDS-FILE
           LABEL RECORDS ARE OMITTED
           RECORD CONTAINS 60 CHARACTERS.
       01  ENDS-LINE                    PIC X(60).
       WORKING-STORAGE SECTION.
       77  MASTER-STATUS                PIC XX    VALUE SPACES.
       77  END-FLAG                     PIC X     VALUE "N".
           88  END-OF-MASTER            VALUE "Y".
       77  ENDED-COUNT                  PIC 9(4)  VALUE ZERO.
       77  ENDING-COUNT                 PIC 9(4)  VALUE ZERO.
       01  TODAY                        PIC 9(6).
      *    THREE MONTHS FROM TODAY.
       01  WARN-DATE                    PIC 9(6).
       01  WARN-PARTS REDEFINES WARN-DATE.
           05  WARN-YY                  PIC 99.
           05  WARN-MM                  PIC 99.
           05  WARN-DD                  PIC 99.
       01  HEADING-LINE.
           05  FILLER                   PIC X(43)
               VALUE "PAYENDS     CONTRACTS THAT END".
           05  HL-DATE                  PIC 99/99/99.
           05  FILLER                   PIC X(9)  VALUE SPACES.
       01  DETAIL-LINE.
           05  DL-NUMBER                PIC 9(5).
           05  FILLER                   PIC X     VALUE SPACE.
           05  DL-SURNAME               PIC X(14).
           05  FILLER                   PIC X     VALUE SPACE.
           05  DL-DEPARTMENT            PIC X(3).
           05  FILLER                   PIC X     VALUE SPACE.
           05  DL-REMARK                PIC X(18).
           05  DL-END                   PIC 99/99/99.
           05  FILLER                   PIC X(9)  VALUE SPACES.
       PROCEDURE DIVISION.
       MAIN-LINE.
           PERFORM START-UP.
           PERFORM ONE-EMPLOYEE THRU ONE-EMPLOYEE-EXIT
               UNTIL END-OF-MASTER.
           DISPLAY "PAYENDS  ENDED " ENDED-COUNT
               "  ENDING " ENDING-COUNT.
           CLOSE MASTER-FILE ENDS-FILE.
           STOP RUN.
       START-UP.
           OPEN INPUT MASTER-FILE OUTPUT ENDS-FILE.
           IF MASTER-STATUS NOT = "00"
               DISPLAY "PAYENDS  NO MASTER, STATUS " MASTER-STATUS
               STOP RUN.
           ACCEPT TODAY FROM DATE.
           MOVE TODAY TO HL-DATE WARN-DATE.
           ADD 3 TO WARN-MM.
           IF WARN-MM > 12
               SUBTRACT 12 FROM WARN-MM
               ADD 1 TO WARN-YY.
           WRITE ENDS-LINE FROM HEADING-LINE AFTER ADVANCING PAGE.
           PERFORM READ-MASTER.
       ONE-EMPLOYEE.
           IF EMP-LEFT OR EMP-PERMANENT
               GO TO ONE-EMPLOYEE-NEXT.
      *    SOME OLD RECORDS HAVE NO DATE.
           IF EMP-CONTRACT-END = 000000
               GO TO ONE-EMPLOYEE-NEXT.
           IF EMP-CONTRACT-END < TODAY
               MOVE "CONTRACT ENDED" TO DL-REMARK
               ADD 1 TO ENDED-COUNT
           ELSE
               IF EMP-CONTRACT-END NOT > WARN-DATE
                   MOVE "CONTRACT ENDS" TO DL-REMARK
                   ADD 1 TO ENDING-COUNT
               ELSE
                   GO TO ONE-EMPLOYEE-NEXT.
           MOVE EMP-NUMBER TO DL-NUMBER.
           MOVE EMP-SURNAME TO DL-SURNAME.
           MOVE EMP-DEPARTMENT TO DL-DEPARTMENT.
           MOVE EMP-CONTRACT-END TO DL-END.
           WRITE ENDS-LINE FROM DETAIL-LINE AFTER ADVANCING 1 LINE.
       ONE-EMPLOYEE-NEXT.
           PERFORM READ-MASTER.
       ONE-EMPLOYEE-EXIT.
           EXIT.
       READ-MASTER.
           READ MASTER-FILE
               AT END MOVE "Y" TO END-FLAG.
