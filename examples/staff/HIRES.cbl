       IDENTIFICATION DIVISION.
       PROGRAM-ID. HIRES.
      * Shows the day on which the first of the staff was hired.
       ENVIRONMENT DIVISION.
       INPUT-OUTPUT SECTION.
       FILE-CONTROL.
           SELECT STAFF-FILE ASSIGN TO STAFF.
       DATA DIVISION.
       FILE SECTION.
       FD  STAFF-FILE.
       01  STAFF-REC.
           COPY STAFF.
       WORKING-STORAGE SECTION.
       01  FIRST-DAY                 PIC 9(6) VALUE 999999.
       01  DONE-FLAG                 PIC X    VALUE "N".
       PROCEDURE DIVISION.
       MAIN-PARA.
           OPEN INPUT STAFF-FILE.
           PERFORM READ-PARA UNTIL DONE-FLAG = "Y".
           CLOSE STAFF-FILE.
           DISPLAY "FIRST HIRED " FIRST-DAY.
           STOP RUN.
       READ-PARA.
           READ STAFF-FILE
             AT END MOVE "Y" TO DONE-FLAG
             NOT AT END PERFORM LOOK-PARA
           END-READ.
       LOOK-PARA.
           IF HIRED < FIRST-DAY
             MOVE HIRED TO FIRST-DAY
           END-IF.
