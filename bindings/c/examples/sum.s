* sum.hex, assembled by hand for the 68000. Offsets on the left.
*
* It adds four longs into a BSS of another hunk, and returns the sum and the distance from the end
* of its own hunk to where it stands:
*   11111111 + 02222222 + 00333333 + 00044444 = 136AAAAA, and 4 where the hunks lie one right after
*   the other: D0 136AAAAE, at every base. The BSS is then 00000000 136AAAAA 00000000.

            section code
 00         lea     table,a0    41F9 00000020   RELOC32 at 2, target 0
 06         lea     sum,a1      43F9 00000004   RELOC32 at 8, target 1
 0C         moveq   #3,d1       7203
 0E   loop  move.l  (a0)+,d0    2018
 10         add.l   d0,(a1)     D191
 12         dbra    d1,loop     51C9 FFFA
 16         move.l  (a1),d0     2011
 18         suba.l  a0,a1       93C8
 1A         add.l   a1,d0       D089
 1C         rts                 4E75
 1E         nop                 4E71
 20   table dc.l    $11111111,$02222222,$00333333,$00044444

            section bss
 00         ds.l    1
 04   sum   ds.l    1
 08         ds.l    1
