       IDENTIFICATION DIVISION.
       PROGRAM-ID. TERMS.
       ENVIRONMENT DIVISION.
       INPUT-OUTPUT SECTION.
       FILE-CONTROL.
           SELECT LOANS ASSIGN TO LOANS.
       DATA DIVISION.
       FILE SECTION.
       FD  LOANS.
       01  LOAN-REC.
           05  L-NO                  PIC 9(4).
           05  L-DUE                 PIC 9(6).
           05  L-BORN                PIC 9(6).
       WORKING-STORAGE SECTION.
       01  TODAY                     PIC 9(6).
       01  SHOWN-DUE                 PIC 99/99/99.
       01  DONE-FLAG                 PIC X VALUE "N".
       PROCEDURE DIVISION.
       MAIN-PARA.
           ACCEPT TODAY FROM DATE.
           OPEN INPUT LOANS.
           PERFORM READ-PARA UNTIL DONE-FLAG = "Y".
           CLOSE LOANS.
           STOP RUN.
       READ-PARA.
           READ LOANS AT END MOVE "Y" TO DONE-FLAG
             NOT AT END PERFORM LOOK-PARA END-READ.
       LOOK-PARA.
           MOVE L-DUE TO SHOWN-DUE.
           IF L-DUE < TODAY AND L-BORN < 300101
             DISPLAY L-NO " WAS DUE " SHOWN-DUE.
