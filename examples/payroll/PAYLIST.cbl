       IDENTIFICATION DIVISION.
       PROGRAM-ID. PAYLIST.
       AUTHOR. P ANAND.
       DATE-WRITTEN. 12 FEBRUARY 1989.
      ******************************************************************
      * The staff list: who works here, born and hired when, how old,  *
      * and until when, with the mean age at the end.                  *
      ******************************************************************
       ENVIRONMENT DIVISION.
       INPUT-OUTPUT SECTION.
       FILE-CONTROL.
           SELECT Master-File ASSIGN TO EMPNEW
               ORGANIZATION IS SEQUENTIAL
               FILE STATUS IS Master-Status.
           SELECT List-File ASSIGN TO STAFF.

       DATA DIVISION.
       FILE SECTION.
       FD  Master-File
           LABEL RECORDS ARE STANDARD.
           COPY EMPREC.
       FD  List-File
           LABEL RECORDS ARE OMITTED.
       01  List-Line                  PIC X(90).

       WORKING-STORAGE SECTION.
       01  Master-Status              PIC X(2).
           88  Master-Ok              VALUE "00".
       01  Switches.
           05  End-Switch             PIC X VALUE "N".
               88  End-Of-Master      VALUE "Y".
       01  Counters.
           05  Staff-Count            PIC 9(4) VALUE 0.
           05  Line-Count             PIC 9(2) VALUE 99.
           05  Page-Count             PIC 9(3) VALUE 0.
           05  Age-Total              PIC 9(6) VALUE 0.
           05  Mean-Age               PIC 9(2)V9 VALUE 0.
      * Counted for the survey of 1997 (circular 97/14).
           05  Survey-Count           PIC 9(4) VALUE 0.
       01  Age                        PIC 9(2).
       01  Run-Date                   PIC 9(6).
       01  Run-Parts REDEFINES Run-Date.
           05  Run-YY                 PIC 9(2).
           05  Run-MMDD               PIC 9(4).
      * Those hired before decimalisation keep the old pension.
       01  Pension-Day                PIC 9(6).
           88  Old-Pension            VALUE 000101 THRU 710214.

       01  Heading-1.
           05  FILLER                 PIC X(61) VALUE
               "PAYLIST     STAFF LIST".
           05  FILLER                 PIC X(5) VALUE "PAGE ".
           05  H1-Page                PIC ZZ9.
           05  FILLER                 PIC X(3) VALUE SPACES.
           05  H1-Date                PIC 99/99/99.
           05  FILLER                 PIC X(10) VALUE SPACES.
       01  Heading-2.
           05  FILLER                 PIC X(36) VALUE
               "NUMBER  NAME                    DEPT".
           05  FILLER                 PIC X(12) VALUE "        BORN".
           05  FILLER                 PIC X(12) VALUE "       HIRED".
           05  FILLER                 PIC X(8)  VALUE "  AGE  P".
           05  FILLER                 PIC X(22) VALUE "         UNTIL".
       01  Detail-Line.
           05  D-Number               PIC 9(5).
           05  FILLER                 PIC X(3) VALUE SPACES.
           05  D-Surname              PIC X(14).
           05  FILLER                 PIC X VALUE SPACE.
           05  D-Forename             PIC X(9).
           05  FILLER                 PIC X VALUE SPACE.
           05  D-Department           PIC X(3).
           05  FILLER                 PIC X(4) VALUE SPACES.
           05  D-Born                 PIC 99/99/99.
           05  FILLER                 PIC X(4) VALUE SPACES.
           05  D-Hired                PIC 99/99/99.
           05  FILLER                 PIC X(2) VALUE SPACES.
           05  D-Age                  PIC ZZ9.
           05  FILLER                 PIC X(2) VALUE SPACES.
           05  D-Pension              PIC X VALUE SPACE.
           05  FILLER                 PIC X(4) VALUE SPACES.
           05  D-Until                PIC 99/99/99.
           05  D-Until-Text REDEFINES D-Until PIC X(8).
           05  FILLER                 PIC X(10) VALUE SPACES.
       01  Total-Line.
           05  FILLER                 PIC X(8) VALUE "STAFF".
           05  T-Count                PIC Z,ZZ9.
           05  FILLER                 PIC X(45) VALUE SPACES.
           05  T-Mean-Age             PIC Z9.9.
           05  FILLER                 PIC X(28) VALUE "  MEAN AGE".

       PROCEDURE DIVISION.
       Main-Para.
           OPEN INPUT Master-File
           IF NOT Master-Ok
               DISPLAY "PAYLIST  NO MASTER, STATUS " Master-Status
               STOP RUN
           END-IF
           OPEN OUTPUT List-File
           ACCEPT Run-Date FROM DATE
           MOVE Run-Date TO H1-Date
           PERFORM Read-Master
           PERFORM UNTIL End-Of-Master
               IF NOT EMP-LEFT
                   PERFORM List-One
               END-IF
               PERFORM Read-Master
           END-PERFORM
           PERFORM Print-Total
           CLOSE Master-File List-File
           STOP RUN.

       List-One.
           PERFORM Work-Out-Age
           MOVE EMP-NUMBER TO D-Number
           MOVE EMP-SURNAME TO D-Surname
           MOVE EMP-FORENAME TO D-Forename
           MOVE EMP-DEPARTMENT TO D-Department
           MOVE EMP-BIRTH-DATE TO D-Born
           MOVE EMP-HIRE-DATE TO D-Hired Pension-Day
           MOVE Age TO D-Age
           IF Old-Pension
               MOVE "P" TO D-Pension
           ELSE
               MOVE SPACE TO D-Pension
           END-IF
           IF EMP-PERMANENT
               MOVE "--------" TO D-Until-Text
           ELSE
               MOVE EMP-CONTRACT-END TO D-Until
               ADD 1 TO Survey-Count
           END-IF
           IF Line-Count > 50
               PERFORM Print-Headings
           END-IF
           WRITE List-Line FROM Detail-Line AFTER ADVANCING 1
           ADD 1 TO Line-Count Staff-Count.

      * Full years on the day of the run.
       Work-Out-Age.
           SUBTRACT EMP-BIRTH-YY FROM Run-YY GIVING Age
           IF EMP-BIRTH-MMDD > Run-MMDD AND Age > 0
               SUBTRACT 1 FROM Age
           END-IF
           ADD Age TO Age-Total.

       Print-Headings.
           ADD 1 TO Page-Count
           MOVE Page-Count TO H1-Page
           WRITE List-Line FROM Heading-1 AFTER ADVANCING PAGE
           WRITE List-Line FROM Heading-2 AFTER ADVANCING 2
           MOVE 3 TO Line-Count.

       Print-Total.
           IF Staff-Count > 0
               DIVIDE Age-Total BY Staff-Count GIVING Mean-Age ROUNDED
           END-IF
           MOVE Staff-Count TO T-Count
           MOVE Mean-Age TO T-Mean-Age
           WRITE List-Line FROM Total-Line AFTER ADVANCING 2
           DISPLAY "PAYLIST  STAFF " Staff-Count
               "  WITH A CONTRACT " Survey-Count.

       Read-Master.
           READ Master-File
               AT END
                   MOVE "Y" TO End-Switch
           END-READ.
