      *    CTLCARD    THE CONTROL CARD OF THE MONTH, COLUMNS 1 TO 4
      *               HAVE THE PERIOD AS MMYY.
       01  CONTROL-CARD.
           05  CTL-PERIOD.
               10  CTL-MM               PIC 99.
               10  CTL-YY               PIC 99.
           05  FILLER                   PIC X(76).
