      *    NEWCLM     A NEW CLAIM, AS THE BRANCHES PUNCH IT, 50 COLUMNS
       01  NEW-CLAIM.
           05  NC-POLICY.
               10  NC-BRANCH            PIC XX.
               10  NC-SERIAL            PIC 9(5).
           05  NC-LOSS-DAY              PIC 9(5).
           05  NC-KIND                  PIC X.
           05  NC-DETAIL                PIC X(16).
           05  NC-ESTIMATE              PIC 9(7)V99.
           05  FILLER                   PIC X(12).
