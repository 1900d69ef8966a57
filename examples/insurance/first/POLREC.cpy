      ******************************************************************
      *    POLREC     MOTOR POLICY, 110 BYTES, IN ORDER OF POL-KEY     *
      *    ALL DATES ARE PACKED YYMMDD.                                *
      ******************************************************************
       01  POLICY-RECORD.
           05  POL-KEY.
               10  POL-BRANCH           PIC XX.
               10  POL-SERIAL           PIC 9(5).
           05  POL-HOLDER               PIC X(18).
           05  POL-BORN                 PIC 9(6)      COMP-3.
           05  POL-INCEPTION            PIC 9(6)      COMP-3.
           05  POL-EXPIRY               PIC 9(6)      COMP-3.
               88  POL-EXPIRED-LONG-AGO VALUE 000101 THRU 941231.
           05  POL-STATUS               PIC X.
               88  POL-IN-FORCE         VALUE "F".
               88  POL-LAPSED           VALUE "L".
           05  POL-CLASS                PIC X.
               88  POL-IS-PRIVATE       VALUE "P".
               88  POL-IS-GOODS         VALUE "G".
           05  POL-VEHICLE              PIC X(10).
           05  POL-PRIVATE REDEFINES POL-VEHICLE.
               10  POL-ENGINE-CC        PIC 9(4).
               10  FILLER               PIC X(6).
           05  POL-GOODS REDEFINES POL-VEHICLE.
               10  POL-TONS             PIC 9(3)V9.
               10  POL-AXLES            PIC 9.
               10  FILLER               PIC X(5).
           05  POL-FREE-YEARS           PIC 9.
           05  POL-PREMIUM              PIC S9(5)V99  COMP-3.
      *    ONE, TWO OR FOUR INSTALMENTS. THOSE NOT USED HAVE ZEROS,
      *    AND SO HAS THE DAY OF PAYMENT OF ONE THAT ISN'T PAID.
           05  POL-INSTALMENTS          PIC 9.
           05  POL-INSTALMENT OCCURS 4 TIMES.
               10  INS-DUE              PIC 9(6)      COMP-3.
               10  INS-PAID             PIC 9(6)      COMP-3.
               10  INS-AMOUNT           PIC S9(5)V99  COMP-3.
           05  FILLER                   PIC X(7).
