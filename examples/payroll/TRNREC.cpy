      ******************************************************************
      *    TRNREC     TRANSACTION CARD, 80 COLUMNS                     *
      *               H  HIRED     C  CHANGED     X  LEFT              *
      *               A FIELD OF A CHANGE THAT IS BLANK STAYS          *
      ******************************************************************
       01  TRANSACTION-CARD.
           05  TRN-CODE                 PIC X.
               88  TRN-HIRED            VALUE "H".
               88  TRN-CHANGED          VALUE "C".
               88  TRN-LEFT             VALUE "X".
           05  TRN-NUMBER               PIC 9(5).
           05  TRN-SURNAME              PIC X(14).
           05  TRN-FORENAME             PIC X(10).
           05  TRN-DEPARTMENT           PIC X(3).
           05  TRN-GRADE                PIC 9.
           05  TRN-BIRTH-DATE           PIC 9(6).
           05  TRN-BIRTH-PARTS REDEFINES TRN-BIRTH-DATE.
               10  TRN-BIRTH-YY         PIC 99.
               10  TRN-BIRTH-MMDD       PIC 9(4).
           05  TRN-HIRE-DATE            PIC 9(6).
           05  TRN-HIRE-PARTS REDEFINES TRN-HIRE-DATE.
               10  TRN-HIRE-YY          PIC 99.
               10  TRN-HIRE-MMDD        PIC 9(4).
           05  TRN-CONTRACT-END         PIC 9(6).
               88  TRN-PERMANENT        VALUE 999999.
           05  TRN-RISE-MONTH.
               10  TRN-RISE-MM          PIC 99.
               10  TRN-RISE-YY          PIC 99.
           05  TRN-SALARY               PIC 9(5)V99.
           05  TRN-LEAVE-DAYS           PIC 99V9.
           05  FILLER                   PIC X(14).
