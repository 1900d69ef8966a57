      ******************************************************************
      *    EMPREC     EMPLOYEE MASTER RECORD, 80 BYTES                 *
      *               IN ASCENDING ORDER OF EMPLOYEE NUMBER            *
      ******************************************************************
       01  EMPLOYEE-RECORD.
           05  EMP-NUMBER               PIC 9(5).
           05  EMP-NAME.
               10  EMP-SURNAME          PIC X(14).
               10  EMP-FORENAME         PIC X(10).
           05  EMP-DEPARTMENT           PIC X(3).
           05  EMP-GRADE                PIC 9.
      *    DATES ARE YYMMDD.
           05  EMP-BIRTH-DATE           PIC 9(6).
           05  EMP-BIRTH-PARTS REDEFINES EMP-BIRTH-DATE.
               10  EMP-BIRTH-YY         PIC 99.
               10  EMP-BIRTH-MMDD       PIC 9(4).
           05  EMP-HIRE-DATE            PIC 9(6).
           05  EMP-HIRE-PARTS REDEFINES EMP-HIRE-DATE.
               10  EMP-HIRE-YY          PIC 99.
               10  EMP-HIRE-MM          PIC 99.
               10  EMP-HIRE-DD          PIC 99.
      *    THE LAST DAY OF A CONTRACT. PERMANENT STAFF HAVE NINES.
           05  EMP-CONTRACT-END         PIC 9(6).
               88  EMP-PERMANENT        VALUE 999999.
      *    THE MONTH OF THE LAST RISE IS MMYY.
           05  EMP-RISE-MONTH.
               10  EMP-RISE-MM          PIC 99.
               10  EMP-RISE-YY          PIC 99.
           05  EMP-STATUS               PIC X.
               88  EMP-ACTIVE           VALUE "A".
               88  EMP-LEFT             VALUE "X".
           05  EMP-SALARY               PIC 9(5)V99.
           05  EMP-LEAVE-DAYS           PIC 99V9.
           05  FILLER                   PIC X(14).
