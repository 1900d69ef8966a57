       IDENTIFICATION DIVISION.
       PROGRAM-ID. LEAP.
       DATA DIVISION.
       WORKING-STORAGE SECTION.
       01  YY                        PIC 9(2).
       01  Q                         PIC 9(2).
       01  R                         PIC 9(2).
       PROCEDURE DIVISION.
       MAIN-PARA.
           DIVIDE YY BY 4 GIVING Q REMAINDER R.
           STOP RUN.
