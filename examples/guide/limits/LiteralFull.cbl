       IDENTIFICATION DIVISION.
       PROGRAM-ID. P.
       DATA DIVISION.
       WORKING-STORAGE SECTION.
       01 TEXT-LINE PIC X(160).
       PROCEDURE DIVISION.
           MOVE "580101 ------------------------------------------------
      -    "------------------------------------------------------------
      -    "---------------------------------------------"
           TO TEXT-LINE.
           STOP RUN.
