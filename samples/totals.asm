; One total per row, as a straight-through module: it goes through the table from the first row to the last and is known to finish.
;
; The data area has four rows of four words: quantity, cost, price and margin, the last three in cents. The host fills in all but the
; margins. The module writes each margin, (price - cost) * quantity, into its row, and leaves out a row whose quantity is 0: it keeps the
; margin that it has, and adds nothing. At the last bundle's SYSCALL the report is complete, and register 8 has the total in cents.
;
; All numbers are signed. One that does not fit in 32 bits ends the report and is in no figure of it: a difference or a sum ends in Integer
; Overflow, a product in Trap, since it fits where HI is 32 copies of the sign of LO.
;
; There is no loop and no call here: each row has its own words, and every branch leads ahead, at least over its slot.
;
; Registers: 2 a margin, 6 and 7 what it is tested by; 8 the total; 10 the data's base, 12 a row's quantity, 13 its cost, 14 its price.

        ADDIU   8, 0, 0
        load.w  12, 0(10) table 4    ; a cell at a place that is known: its mask is 0
        BEQ     12, 0, second
        NOP
        load.w  13, 4(10) table 4
        load.w  14, 8(10) table 4
        SUB     2, 14, 13
        MULT    2, 12
        MFLO    2
        MFHI    6
        SRA     7, 2, 31
        TNE     6, 7
        store.w 2, 12(10) table 4
        ADD     8, 8, 2

second:
        load.w  12, 16(10) table 4
        BEQ     12, 0, third
        NOP
        load.w  13, 20(10) table 4
        load.w  14, 24(10) table 4
        SUB     2, 14, 13
        MULT    2, 12
        MFLO    2
        MFHI    6
        SRA     7, 2, 31
        TNE     6, 7
        store.w 2, 28(10) table 4
        ADD     8, 8, 2

third:
        load.w  12, 32(10) table 4
        BEQ     12, 0, fourth
        NOP
        load.w  13, 36(10) table 4
        load.w  14, 40(10) table 4
        SUB     2, 14, 13
        MULT    2, 12
        MFLO    2
        MFHI    6
        SRA     7, 2, 31
        TNE     6, 7
        store.w 2, 44(10) table 4
        ADD     8, 8, 2

fourth:
        load.w  12, 48(10) table 4
        BEQ     12, 0, complete
        NOP
        load.w  13, 52(10) table 4
        load.w  14, 56(10) table 4
        SUB     2, 14, 13
        MULT    2, 12
        MFLO    2
        MFHI    6
        SRA     7, 2, 31
        TNE     6, 7
        store.w 2, 60(10) table 4
        ADD     8, 8, 2
        J       complete            ; past the NOPs that fill the module up
        NOP

complete:
        straight
