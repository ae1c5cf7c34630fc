C     The benchmark's sheets, each written to or read from an internal
C     file by one statement. FORTRAN 77 with the sizes INTEGER*4 and
C     REAL*8, for gfortran, f2c and flang. The format is read at each
C     statement, since it stands in a variable. Element J of the list is
C     IV(J), DV(J), LV(J) or the beginning of TV(J). Every subroutine has
C     the same arguments.
      SUBROUTINE WSMALL(FMT,IV,DV,LV,TV,REC)
      INTEGER*4 IV(64)
      REAL*8 DV(64)
      LOGICAL LV(64)
      CHARACTER*(*) FMT
      CHARACTER*4 TV(64)
      CHARACTER*20 REC
      WRITE(REC,FMT) IV(1),DV(2),LV(3),TV(4)(1:3)
      END
      SUBROUTINE RSMALL(FMT,IV,DV,LV,TV,REC)
      INTEGER*4 IV(64)
      REAL*8 DV(64)
      LOGICAL LV(64)
      CHARACTER*(*) FMT
      CHARACTER*4 TV(64)
      CHARACTER*20 REC
      READ(REC,FMT) IV(1),DV(2),LV(3),TV(4)(1:3)
      END
      SUBROUTINE WFULL(FMT,IV,DV,LV,TV,REC)
      INTEGER*4 IV(64)
      REAL*8 DV(64)
      LOGICAL LV(64)
      CHARACTER*(*) FMT
      CHARACTER*4 TV(64)
      CHARACTER*80 REC(8)
      WRITE(REC,FMT) DV
      END
      SUBROUTINE RFULL(FMT,IV,DV,LV,TV,REC)
      INTEGER*4 IV(64)
      REAL*8 DV(64)
      LOGICAL LV(64)
      CHARACTER*(*) FMT
      CHARACTER*4 TV(64)
      CHARACTER*80 REC(8)
      READ(REC,FMT) DV
      END
      SUBROUTINE WINTS(FMT,IV,DV,LV,TV,REC)
      INTEGER*4 IV(64)
      REAL*8 DV(64)
      LOGICAL LV(64)
      CHARACTER*(*) FMT
      CHARACTER*4 TV(64)
      CHARACTER*80 REC(8)
      WRITE(REC,FMT) IV
      END
      SUBROUTINE RINTS(FMT,IV,DV,LV,TV,REC)
      INTEGER*4 IV(64)
      REAL*8 DV(64)
      LOGICAL LV(64)
      CHARACTER*(*) FMT
      CHARACTER*4 TV(64)
      CHARACTER*80 REC(8)
      READ(REC,FMT) IV
      END
      SUBROUTINE WTEXTS(FMT,IV,DV,LV,TV,REC)
      INTEGER*4 J,IV(64)
      REAL*8 DV(64)
      LOGICAL LV(64)
      CHARACTER*(*) FMT
      CHARACTER*4 TV(64)
      CHARACTER*80 REC(4)
      WRITE(REC,FMT) (LV(J),TV(J+1),J=1,64,2)
      END
      SUBROUTINE RTEXTS(FMT,IV,DV,LV,TV,REC)
      INTEGER*4 J,IV(64)
      REAL*8 DV(64)
      LOGICAL LV(64)
      CHARACTER*(*) FMT
      CHARACTER*4 TV(64)
      CHARACTER*80 REC(4)
      READ(REC,FMT) (LV(J),TV(J+1),J=1,64,2)
      END
      SUBROUTINE WMIXED(FMT,IV,DV,LV,TV,REC)
      INTEGER*4 J,IV(64)
      REAL*8 DV(64)
      LOGICAL LV(64)
      CHARACTER*(*) FMT
      CHARACTER*4 TV(64)
      CHARACTER*80 REC(8)
      WRITE(REC,FMT) (IV(J),IV(J+1),DV(J+2),DV(J+3),DV(J+4),LV(J+5),
     + LV(J+6),TV(J+7),J=1,64,8)
      END
      SUBROUTINE RMIXED(FMT,IV,DV,LV,TV,REC)
      INTEGER*4 J,IV(64)
      REAL*8 DV(64)
      LOGICAL LV(64)
      CHARACTER*(*) FMT
      CHARACTER*4 TV(64)
      CHARACTER*80 REC(8)
      READ(REC,FMT) (IV(J),IV(J+1),DV(J+2),DV(J+3),DV(J+4),LV(J+5),
     + LV(J+6),TV(J+7),J=1,64,8)
      END
      SUBROUTINE WNESTS(FMT,IV,DV,LV,TV,REC)
      INTEGER*4 J,IV(64)
      REAL*8 DV(64)
      LOGICAL LV(64)
      CHARACTER*(*) FMT
      CHARACTER*4 TV(64)
      CHARACTER*60 REC(5)
      WRITE(REC,FMT) IV(1),(DV(J),IV(J+1),LV(J+2),TV(J+3)(1:2),DV(J+4),
     + TV(J+5)(1:2),DV(J+6),J=2,64,7)
      END
      SUBROUTINE RNESTS(FMT,IV,DV,LV,TV,REC)
      INTEGER*4 J,IV(64)
      REAL*8 DV(64)
      LOGICAL LV(64)
      CHARACTER*(*) FMT
      CHARACTER*4 TV(64)
      CHARACTER*60 REC(5)
      READ(REC,FMT) IV(1),(DV(J),IV(J+1),LV(J+2),TV(J+3)(1:2),DV(J+4),
     + TV(J+5)(1:2),DV(J+6),J=2,64,7)
      END
C     An empty list: gfortran's and f2c's runtimes read the whole format
C     before they write.
      SUBROUTINE CHECKS(FMT,IV,DV,LV,TV,REC)
      INTEGER*4 IV(64)
      REAL*8 DV(64)
      LOGICAL LV(64)
      CHARACTER*(*) FMT
      CHARACTER*4 TV(64)
      CHARACTER*20 REC
      WRITE(REC,FMT)
      END
