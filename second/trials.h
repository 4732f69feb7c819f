/* The trials: streams of questions, answered one after the other, for comparing two programs.
   Numbers are little-endian; a file, of either version, has at most 4,096 bytes, a sheet at most
   16,384, a list at most 256 slots. The letters of the bench stand in one stream:

   F  length (2), file                  the report's lines, then a line `.`
   B  length (2), file                  the lines of the program that blames, then a line `.`
   P  length (2), file                  `refused N` for a refused file; else `waits`, 7 x ` W:ROW`,
                                        ` blames` and 24 x ` PLACE:ROW`
   p  a load as in W                    `refused N` for a faulty load; else as P answers a good
                                        file, and on the same line ` margins` and 24 x ` MARGIN`,
                                        0 for rows not there
   M  length (2), file, clock (4), 24 x [finished (1) end (4) opening (4)]
                                        `refused N` for a refused file; else `start ROW STEP START`,
                                        `idle`, `done` or `refused N`, then ` lamps WORD count N`,
                                        ` clock N` and 24 x ` FINISHED:END:OPENING` of the state
                                        handed back
   N  a load as in W, clock and 24 x progress as in M
                                        as M answers a move; a faulty load is a refused move

   and those of checks, files and sheets in the other:

   C  length (2), file, count (2), slots: row (1) step (1) start (4)
                                        `refused N` for a refused file; else `check N`, 0 for yes
   D  a load as in W, count and slots as in C
                                        `check N`, N being the load's number where it is faulty
   W  rows (1), 24 x [identifier (4) box (4) phase (4) deadline (4) steps (1) windows (1)
      class (1) head (1), 8 x (cost (2) wait (2)), 4 x (first (1) last (1) limit (2))]
                                        `load N`, and where N is 0 the file in version 1 in hex
   w  room (2), a load as in W          `load N`, and where N is 0 all the room's bytes in hex
   V  a load as in W                    `load2 N`, and where N is 0 the file in version 2 in hex
   v  room (2), a load as in W          `load2 N`, and where N is 0 all the room's bytes in hex
   S  count (2), slots as in C          `schedule N`, and where N is 0 the file in hex
   s  room (2), count and slots as in S `schedule N`, and where N is 0 all the room's bytes in hex
   R  length (2), sheet                 `sheet N`, and where N is 0 the load as a file of version 1
                                        in hex
   E  a load as in W                    `export N`, and where N is 0 the written sheet in hex
   e  room (2), a load as in W          `export N LENGTH` and all the room's bytes in hex, whatever
                                        N is; LENGTH is the sheet's, 0 where N is not 0

   Hex stands behind a blank, which is there where it is of no bytes too. A room is so many bytes,
   at most 4,096, for e at most 10,240; each of them is A5 before.
   The input's end ends a stream. Another letter, a larger length, count or room, or a question cut
   short is answered by a line `bad`, and that ends it too. Any stream may have any letter. */
#ifndef TRIALS_H
#define TRIALS_H

#include <stdio.h>

void answer_trials(FILE *questions, FILE *answers);

#endif
