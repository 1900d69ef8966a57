      ******************************************************************
      *    CLMREC     A CLAIM IN THE REGISTER, 50 BYTES                *
      *    DAYS ARE PACKED YYDDD. CLAIMS ARE NUMBERED FROM 1 IN EACH   *
      *    YEAR.                                                       *
      ******************************************************************
       01  CLAIM-RECORD.
           05  CLM-NUMBER.
               10  CLM-BRANCH           PIC XX.
               10  CLM-YEAR             PIC 99.
               10  CLM-SERIAL           PIC 9(4).
           05  CLM-POLICY               PIC X(7).
           05  CLM-LOSS-DAY             PIC 9(5)      COMP-3.
           05  CLM-REPORT-DAY           PIC 9(5)      COMP-3.
           05  CLM-KIND                 PIC X.
               88  CLM-IS-THEFT         VALUE "T".
               88  CLM-IS-COLLISION     VALUE "C".
           05  CLM-DETAIL               PIC X(16).
           05  CLM-THEFT REDEFINES CLM-DETAIL.
               10  CLM-POLICE-NUMBER    PIC X(12).
               10  FILLER               PIC X(4).
           05  CLM-COLLISION REDEFINES CLM-DETAIL.
               10  CLM-THIRD-PARTY      PIC X(14).
               10  CLM-INJURED          PIC 99.
           05  CLM-ESTIMATE             PIC S9(7)V99  COMP-3.
           05  CLM-STATE                PIC X.
               88  CLM-OPEN             VALUE "O".
               88  CLM-SETTLED          VALUE "S".
           05  FILLER                   PIC X(6).
