       IDENTIFICATION DIVISION.
       PROGRAM-ID. LISTING.
      * Lists the staff with the days on which they were hired.
       ENVIRONMENT DIVISION.
       INPUT-OUTPUT SECTION.
       FILE-CONTROL.
           SELECT STAFF-FILE ASSIGN TO STAFF.
       DATA DIVISION.
       FILE SECTION.
       FD  STAFF-FILE.
       01  STAFF-REC.
           COPY STAFF.
       WORKING-STORAGE SECTION.
       01  PRINT-LINE.
           05  PRINT-NAME            PIC X(10).
           05  FILLER                PIC X(2).
           05  PRINT-DATE            PIC 99/99/99.
       01  DONE-FLAG                 PIC X    VALUE "N".
       PROCEDURE DIVISION.
       MAIN-PARA.
           OPEN INPUT STAFF-FILE.
           PERFORM READ-PARA UNTIL DONE-FLAG = "Y".
           CLOSE STAFF-FILE.
           STOP RUN.
       READ-PARA.
           READ STAFF-FILE
             AT END MOVE "Y" TO DONE-FLAG
             NOT AT END PERFORM PRINT-PARA
           END-READ.
       PRINT-PARA.
           MOVE STAFF-NAME TO PRINT-NAME.
           MOVE HIRED TO PRINT-DATE.
           DISPLAY PRINT-LINE.
