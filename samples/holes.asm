; Module M with a hole in its mask: cc100 check refuses it by 25, at word 0. The mask 0x34 leaves 8 out of a place, so that the places 0 and 8 go to one
; cell, and two rows can. What it needs instead is store.w 9, 0(8), whose mask is 0x3C, the data's 64 bytes less the width of 4.
        ANDI    8, 8, 0x34
        OR      8, 8, 26
        SW      9, 0(8)
        SYSCALL 0
