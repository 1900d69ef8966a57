       IDENTIFICATION DIVISION.
       PROGRAM-ID. MOTDEBIT.
       AUTHOR. K OLSEN.
       DATE-WRITTEN. MAY 1987.
      *
      * Writes the tape for the bank: the instalments of policies in
      * force that aren't paid and fall due before the end of the month.
      *
       ENVIRONMENT DIVISION.
       INPUT-OUTPUT SECTION.
       FILE-CONTROL.
           SELECT POLICIES ASSIGN TO POLNEW
               ORGANIZATION IS SEQUENTIAL
               ACCESS MODE IS SEQUENTIAL
               FILE STATUS IS POLICY-STATUS.
           SELECT DEBITS ASSIGN TO DEBITS
               FILE STATUS IS DEBIT-STATUS.
       DATA DIVISION.
       FILE SECTION.
       FD  POLICIES
           LABEL RECORDS ARE STANDARD.
           COPY POLREC.
       FD  DEBITS
           LABEL RECORDS ARE STANDARD.
      * The bank sorts by our reference, which begins with the day due.
       01  DEBIT-RECORD.
           05  DEB-REFERENCE            PIC X(18).
           05  DEB-REFERENCE-PARTS REDEFINES DEB-REFERENCE.
               10  DEB-DUE              PIC 9(6).
               10  DEB-BRANCH           PIC 9(3).
               10  DEB-SERIAL           PIC 9(5).
               10  DEB-INSTALMENT       PIC 9(1).
               10  DEB-FILL             PIC 9(3).
           05  DEB-HOLDER               PIC X(18).
           05  DEB-AMOUNT               PIC 9(5)V99.
       WORKING-STORAGE SECTION.
       01  FILE-STATUSES.
           05  POLICY-STATUS            PIC XX.
           05  DEBIT-STATUS             PIC XX.
       01  SWITCHES.
           05  POLICY-SWITCH            PIC X VALUE "M".
               88  MORE-POLICIES        VALUE "M".
               88  NO-MORE-POLICIES     VALUE "E".
       01  BRANCH-CODES.
           05  FILLER                   PIC X(5) VALUE "LE110".
           05  FILLER                   PIC X(5) VALUE "MA120".
           05  FILLER                   PIC X(5) VALUE "NE205".
           05  FILLER                   PIC X(5) VALUE "YO210".
       01  BRANCH-TABLE REDEFINES BRANCH-CODES.
           05  BRANCH-ENTRY OCCURS 4 TIMES.
               10  BRANCH-CODE          PIC XX.
               10  BRANCH-NUMBER        PIC 9(3).
       01  B                            PIC 9(2) COMP.
       01  N                            PIC 9(2) COMP.
       01  DEBIT-COUNT                  PIC 9(5) COMP VALUE 0.
       01  DEBIT-TOTAL                  PIC S9(7)V99 COMP-3 VALUE 0.
       01  SHOWN-TOTAL                  PIC Z,ZZZ,ZZ9.99-.
       01  MONTH-END                    PIC 9(6).
       01  MONTH-END-PARTS REDEFINES MONTH-END.
           05  FILLER                   PIC 9(4).
           05  MONTH-END-DD             PIC 9(2).
       PROCEDURE DIVISION.
       DEBIT-RUN.
           OPEN INPUT POLICIES OUTPUT DEBITS
           IF POLICY-STATUS NOT = "00" OR DEBIT-STATUS NOT = "00"
               DISPLAY "MOTDEBIT  CANNOT OPEN " FILE-STATUSES
               STOP RUN
           END-IF
           ACCEPT MONTH-END FROM DATE
           MOVE 31 TO MONTH-END-DD
           PERFORM READ-A-POLICY
           PERFORM WITH TEST BEFORE UNTIL NO-MORE-POLICIES
               IF POL-IN-FORCE
                   PERFORM LOOK-AT-INSTALMENT
                       VARYING N FROM 1 BY 1 UNTIL N > POL-INSTALMENTS
               END-IF
               PERFORM READ-A-POLICY
           END-PERFORM
           CLOSE POLICIES DEBITS
           MOVE DEBIT-TOTAL TO SHOWN-TOTAL
           DISPLAY "MOTDEBIT  DEBITS " DEBIT-COUNT " TOTAL " SHOWN-TOTAL
           STOP RUN.

       LOOK-AT-INSTALMENT.
           IF INS-PAID (N) = ZERO AND INS-DUE (N) NOT > MONTH-END
               PERFORM FIND-BRANCH THRU FOUND-BRANCH
               MOVE ZEROS TO DEB-REFERENCE
               MOVE INS-DUE (N) TO DEB-DUE
               IF B > 4
                   MOVE 999 TO DEB-BRANCH
               ELSE
                   MOVE BRANCH-NUMBER (B) TO DEB-BRANCH
               END-IF
               MOVE POL-SERIAL TO DEB-SERIAL
               MOVE N TO DEB-INSTALMENT
               MOVE POL-HOLDER TO DEB-HOLDER
               MOVE INS-AMOUNT (N) TO DEB-AMOUNT
               WRITE DEBIT-RECORD
               ADD 1 TO DEBIT-COUNT
               ADD INS-AMOUNT (N) TO DEBIT-TOTAL
           END-IF.

       FIND-BRANCH.
           MOVE 1 TO B
           PERFORM UNTIL B > 4
               IF BRANCH-CODE (B) = POL-BRANCH
                   GO TO FOUND-BRANCH
               END-IF
               ADD 1 TO B
           END-PERFORM.
       FOUND-BRANCH.
           EXIT.

       READ-A-POLICY.
           READ POLICIES NEXT RECORD
               AT END MOVE "E" TO POLICY-SWITCH
           END-READ.
