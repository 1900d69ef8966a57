       01  MEMBER-REC.
           05  M-NO                  PIC 9(4).
           05  M-JOINED              PIC 9(6).
           05  M-BORN                PIC 9(6).
           05  M-NAME                PIC X(8).
