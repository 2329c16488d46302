      INTEGER ROW(201), NEXT(201)
      N = 200
      M = 1000003
      ROW(1) = 1
      DO 30 I = 1, N
      NEXT(1) = 1
      DO 10 J = 2, I + 1
      K = ROW(J - 1) + ROW(J)
      NEXT(J) = K - K/M*M
   10 CONTINUE
      DO 20 J = 1, I + 1
      ROW(J) = NEXT(J)
   20 CONTINUE
   30 CONTINUE
      PRINT *, ROW(1), ROW(2), ROW(3), ROW(101), ROW(201)
      END
