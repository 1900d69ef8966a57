       IDENTIFICATION DIVISION.
       PROGRAM-ID. SHOWS.
       DATA DIVISION.
       WORKING-STORAGE SECTION.
       01  T6                        PIC X(6).
       01  N4                        PIC 9(4).
       01  N2                        PIC 9(2).
       01  S3                        PIC S9(3).
       01  P3                        PIC S9(3) COMP-3 VALUE -5.
       01  SEP                       PIC S9(3) SIGN LEADING SEPARATE.
       01  LONG                      PIC 9V9(12).
       01  REST-OF                   PIC S9(2) SIGN LEADING SEPARATE.
       01  AMOUNT                    PIC Z,ZZ9.99-.
       01  DAY-OUT                   PIC 99/99/99.
       PROCEDURE DIVISION.
       MAIN-PARA.
           MOVE "AB" TO T6.        DISPLAY "TEXT TO TEXT      " T6 "<".
           MOVE 12 TO T6.          DISPLAY "NUMBER TO TEXT    " T6 "<".
           MOVE P3 TO T6.          DISPLAY "MINUS 5 TO TEXT   " T6 "<".
           MOVE 12345 TO N4.       DISPLAY "12345 TO 9(4)     " N4.
           MOVE -12 TO N4.         DISPLAY "-12 TO 9(4)       " N4.
           MOVE -12 TO S3.         DISPLAY "-12 TO S9(3)      " S3.
           MOVE -12 TO SEP.        DISPLAY "WITH SEPARATE     " SEP.
                                   DISPLAY "PACKED            " P3.
           MOVE "0012" TO N2.      DISPLAY "TEXT TO 9(2)      " N2.
           MOVE -1234.5 TO AMOUNT. DISPLAY "EDITED            " AMOUNT.
           MOVE 0.004 TO AMOUNT.   DISPLAY "EDITED            " AMOUNT.
           MOVE 991231 TO DAY-OUT. DISPLAY "EDITED DAY        " DAY-OUT.
           COMPUTE N2 = 99 + 7.    DISPLAY "106 TO 9(2)       " N2.
           COMPUTE N2 = 7 / 2.     DISPLAY "7 / 2             " N2.
           COMPUTE N2 ROUNDED = 7 / 2.
                                   DISPLAY "7 / 2 ROUNDED     " N2.
           COMPUTE LONG = 1 / 3 * 3.
                                   DISPLAY "1 / 3 * 3         " LONG.
           DIVIDE -7 BY 2 GIVING N2 REMAINDER REST-OF.
                                   DISPLAY "-7 / 2            " N2.
                                   DISPLAY "ITS REMAINDER     " REST-OF.
           MOVE 7 TO N4.
           IF N4 = "0007"          DISPLAY '9(4) = "0007"     YES'.
           IF N4 NOT = "7"         DISPLAY '9(4) = "7"        NO'.
           IF N4 > 5 AND < 8       DISPLAY "N4 > 5 AND < 8    YES".
           DIVIDE N4 BY 0 GIVING N2.
