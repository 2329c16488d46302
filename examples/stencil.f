      INTEGER ROD(102), NEXT(102)
      ROD(51) = 1000000
      DO 30 ITIME = 1, 400
      DO 10 I = 2, 101
      NEXT(I) = (ROD(I - 1) + 2*ROD(I) + ROD(I + 1))/4
   10 CONTINUE
      DO 20 I = 2, 101
      ROD(I) = NEXT(I)
   20 CONTINUE
   30 CONTINUE
      DO 40 I = 1, 102
      ISUM = ISUM + ROD(I)
   40 CONTINUE
      PRINT *, ROD(2), ROD(31), ROD(51), ROD(71), ROD(101), ISUM
      END
