      *    PAYREC     A PAYMENT ON THE BANK TAPE, 20 BYTES
       01  PAYMENT-RECORD.
           05  PAY-KEY.
               10  PAY-POLICY           PIC X(7).
               10  PAY-DUE              PIC 9(6)      COMP-3.
           05  PAY-DAY                  PIC 9(6)      COMP-3.
           05  PAY-AMOUNT               PIC S9(5)V99  COMP-3.
           05  PAY-HOW                  PIC X.
               88  PAY-BY-DEBIT         VALUE "D".
               88  PAY-BY-CHEQUE        VALUE "C".
