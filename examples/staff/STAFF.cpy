      * One employee.
           05  STAFF-NO              PIC 9(4).
           05  HIRED                 PIC 9(6).
           05  STAFF-NAME            PIC X(10).
