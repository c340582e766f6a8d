; A margin report: the margin of each row of a table, the total of the margins, and the rate of that total to the sales.
;
; The data area has four rows of four words: quantity, cost, price and margin, the last three in cents. The host fills in all but the
; margins; a row of zeros adds nothing. The module writes each margin, (price - cost) * quantity, into its row. At SYSCALL 1 the report is
; complete: register 8 has the total in cents, and register 9 the rate in hundredths of a percent, total * 10000 / sales, cut off towards
; zero.
;
; All numbers are signed. One that does not fit in 32 bits ends the report and is in no figure of it: a difference or a sum ends in Integer
; Overflow, a product in Trap. Sales of 0 end in Trap, since there is no rate to them.
;
; Registers: 2 a product, 4 and 5 its factors, 6 and 7 what it is tested by; 8 the total, 9 the rate; 10 a cell's place, 12 its row's
; quantity, 13 the cost, 14 the price; 15 the sales; 16 how many rows or digits are left; 17 a remainder; 31 the return address.

start:
        ADDIU   8, 0, 0
        ADDIU   15, 0, 0
        ADDIU   10, 0, 0
        ADDIU   16, 0, 4

row:
        load.w  12, 0(10) table 64  ; the mask keeps the place of a cell in the table's 64 bytes: 0, 4, 8, .. or 60
        ADDIU   10, 10, 4           ; the next cell
        load.w  13, 0(10) table 64
        ADDIU   10, 10, 4
        load.w  14, 0(10) table 64
        SUB     4, 14, 13
        ADDIU   10, 10, 4           ; the cell of the margin
        call    product
        OR      5, 12, 0            ; in the slot: (price - cost) * quantity
        store.w 2, 0(10) table 64
        ADD     8, 8, 2
        call    product
        OR      4, 14, 0            ; in the slot: price * quantity
        ADD     15, 15, 2
        ADDIU   16, 16, -1
        BNE     16, 0, row
        ADDIU   10, 10, 4           ; in the slot: the next row

; The rate is divided out digit by digit, a whole part and four digits more, because total * 10000 would seldom fit in 32 bits. A remainder
; is smaller than the sales, and times 10 it always fits where they are at most 214748365. It has the sign of the total, so that each digit
; has the sign of the rate, and what is left at the end is cut off towards zero. The one quotient that does not fit, that of -2^31 by -1,
; ends in Trap by its product with 10.
        TEQ     15, 0               ; a division by 0 would give LO -1 and HI the total
        DIV     8, 15
        MFLO    9
        MFHI    17
        ADDIU   5, 0, 10
        ADDIU   16, 0, 4

digit:
        call    product
        OR      4, 9, 0             ; in the slot: rate * 10
        OR      9, 2, 0
        call    product
        OR      4, 17, 0            ; in the slot: remainder * 10
        DIV     2, 15
        MFLO    2
        MFHI    17
        ADD     9, 9, 2
        ADDIU   16, 16, -1
        BNE     16, 0, digit
        NOP

        SYSCALL 1
        J       start               ; a host that resumes the module gets the report anew
        NOP

; 2 is 4 * 5. The product fits in 32 bits where HI is 32 copies of the sign of LO.
product:
        MULT    4, 5
        MFLO    2
        MFHI    6
        SRA     7, 2, 31
        TNE     6, 7
        return  31
        NOP
