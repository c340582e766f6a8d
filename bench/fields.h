/* The fields of the word w, and the bits that are drawn as zero. */
#ifndef FIELDS_H
#define FIELDS_H

#define RS (w >> 21 & 31)
#define RT (w >> 16 & 31)
#define RD (w >> 11 & 31)
#define SHIFT (w >> 6 & 31)
#define VALUE (w & 0xFFFF)

/* By the fields that are missing, or by the only ones that are there. */
#define NO_SHIFT 0x7C0
#define NO_RS 0x3E00000
#define NO_RT 0x1F0000
#define RS_RT_ONLY 0xFFC0
#define RS_ONLY 0x1FFFC0
#define RD_ONLY 0x3FF07C0
#define RS_RD_ONLY 0x1F07C0
#define STYPE_ONLY 0x3FFF800
#define RT_RD_ONLY 0x7FF

#endif
