; A store whose guard was forgotten: cc100 check refuses it by 12, at word 3. What it needs instead is store.w 9, 0(8).
        ADDIU   8, 0, 16        ; the store's place in the data area
        ADDIU   9, 0, 1250      ; and what it stores there
        ADDU    9, 9, 9
        SW      9, 0(8)
        SYSCALL 0
