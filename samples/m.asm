; Document 01's module M: stores each figure at its place in the data area, and asks for the next.
; The host puts the figure's place into register 8 and the figure into register 9.
        store.w 9, 0(8)
        SYSCALL 0
