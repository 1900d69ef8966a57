       IDENTIFICATION DIVISION.
       PROGRAM-ID. TRAP.
       PROCEDURE DIVISION.
       MAIN-PARA.
           DISPLAY "MAIN".
           GOBACK.
       LAST-PARA.
           DISPLAY "AND ON".
           STOP RUN.
