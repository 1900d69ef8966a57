       IDENTIFICATION DIVISION.
       PROGRAM-ID. DUES.
       ENVIRONMENT DIVISION.
       INPUT-OUTPUT SECTION.
       FILE-CONTROL.
           SELECT MEMBERS ASSIGN TO MEMBERS.
           SELECT PRINTER ASSIGN TO PRINTER.
       DATA DIVISION.
       FILE SECTION.
       FD  MEMBERS.
           COPY MEMBER.
       FD  PRINTER.
       01  PRINT-REC                 PIC X(24).
       WORKING-STORAGE SECTION.
       01  HEAD-LINE.
           05  FILLER                PIC X(10) VALUE "MEMBER".
           05  FILLER                PIC X(2)  VALUE SPACES.
           05  FILLER                PIC X(12) VALUE "JOINED".
       01  DETAIL-LINE.
           05  D-NAME                PIC X(8).
           05  FILLER                PIC X(2) VALUE SPACES.
           05  D-JOINED              PIC 99/99/99.
           05  FILLER                PIC X(6) VALUE SPACES.
       01  TOTAL-LINE.
           05  FILLER                PIC X(10) VALUE "MEMBERS".
           05  FILLER                PIC X(2)  VALUE SPACES.
           05  T-COUNT               PIC Z(3)9.
           05  FILLER                PIC X(8)  VALUE SPACES.
       01  MEMBER-COUNT              PIC 9(4) VALUE 0.
       01  DONE-FLAG                 PIC X VALUE "N".
       PROCEDURE DIVISION.
       MAIN-PARA.
           OPEN INPUT MEMBERS OUTPUT PRINTER.
           WRITE PRINT-REC FROM HEAD-LINE.
           PERFORM READ-PARA UNTIL DONE-FLAG = "Y".
           MOVE MEMBER-COUNT TO T-COUNT.
           WRITE PRINT-REC FROM TOTAL-LINE.
           CLOSE MEMBERS PRINTER.
           STOP RUN.
       READ-PARA.
           READ MEMBERS AT END MOVE "Y" TO DONE-FLAG
             NOT AT END PERFORM LINE-PARA END-READ.
       LINE-PARA.
           ADD 1 TO MEMBER-COUNT.
           MOVE M-NAME TO D-NAME.
           MOVE M-JOINED TO D-JOINED.
           WRITE PRINT-REC FROM DETAIL-LINE.
