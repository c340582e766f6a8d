/* The checker's rules for words, 8 to 16, 22 and 25, at their limits. */
#include <inttypes.h>

#include "test.h"

static struct module m;

static struct layout with_data(uint32_t size)
{
    struct layout l = usual;
    l.data_size = size;
    return l;
}

static struct layout with_code(uint32_t size)
{
    struct layout l = usual;
    l.code_size = size;
    return l;
}

/* One word in a module that is accepted without it. */
static void expect_word(uint32_t word, uint32_t number)
{
    make_quiet(&m, usual);
    m.words[0] = word;
    calling("word 0x%08" PRIX32, word);
    expect_verdict(&m, number, number ? 0 : CC100_NO_PLACE);
}

static void single_words(void)
{
    static const struct {
        uint32_t word, number;
    } words[] = {
        {0x3C250000, 8}, {0x18A10000, 8}, {0x00200000, 8},          /* LUI, BLEZ and SLL with a bit that is drawn as zero */
        {0x00A00048, 8}, {0x00A0F849, 8}, {0x00000800 | 0x0F, 8},   /* JR, JALR and SYNC with one */
        {0x40054800, 8}, {0x42000011, 8}, {0x7C000000, 8},          /* MFC0 5,9; a bit off RFE; opcode 31 */
        {0x40056000, 9}, {0x40857000, 9}, {0x000003CD, 9},          /* MFC0 5,12; MTC0 5,14; BREAK 15 */
        {0x0000038D, 0}, {0x0000040D, 0}, {0x020003CD, 0},          /* BREAK 14, 16 and 15 with the top bit of its code */
        {0x000003CC, 0}, {0x0000000F, 0}, {0x000007CF, 0},          /* SYSCALL 15; SYNC 0 and 31 */
        {0x041F0000, 8}, {0x07E00000, 0}, {0x07E10000, 0},          /* opcode 1 with rt 31; BLTZ 31 and BGEZ 31 */
        {0x07D00000, 0}, {0x07D10000, 0}, {0x07F00000, 11},         /* BLTZAL 30, BGEZAL 30, BLTZAL 31 */
        {0x00000009, 11}, {0x03E0F809, 11}, {0x00A00009, 13},       /* JALR 0,0; 31,31; 0,5 without guard */
    };
    for (size_t i = 0; i < sizeof words / sizeof words[0]; i++)
        expect_word(words[i].word, words[i].number);
}

/* What the word with these registers is refused by at word 0, where no guard can be before it. */
static uint32_t expected_alone(uint32_t kind, uint32_t written)
{
    if (control_register(kind) || kind == RFE)
        return CC100_REFUSED_PRIVILEGED;
    if (written == DATA_REGISTER || written == CODE_REGISTER)
        return CC100_REFUSED_BASE_REGISTER;
    if (access_width(kind))
        return CC100_REFUSED_ACCESS;
    return kind == JR || kind == JALR ? CC100_REFUSED_JUMP : CC100_DONE;
}

/* Every kind, with the bases' registers and their neighbours in each of its fields. Targets are the word itself or the first one. */
static void every_kind(void)
{
    static const uint32_t registers[] = {0, 1, 25, 26, 27, 28, 30};
    for (uint32_t kind = 1; kind <= KINDS; kind++)
        for (int a = 0; a < 7; a++)
            for (int b = 0; b < 7; b++) {
                uint32_t rt = registers[a], rd = control_register(kind) ? 12 : registers[b];
                uint32_t value = drawings[kind - 1].value == INDEX ? usual.code_base / 4 : 0;
                expect_word(word_of(kind, 5, rt, rd, value), expected_alone(kind, written_by(kind, rt, rd)));
            }
}

/* A mask that fits in front of a kind: it keeps 32 bytes of the data, or of the code two bundles. */
static uint32_t fitting_mask(uint32_t kind) { return access_width(kind) ? 32 - (uint32_t)access_width(kind) : 16; }

/* A guard before an access in the first bundle, in these words or one later. */
static void put_access(struct layout l, uint32_t first, uint32_t kind, uint32_t mask, uint32_t offset)
{
    make_quiet(&m, l);
    put_guard(&m, first, 8, mask, DATA_REGISTER);
    m.words[first + 2] = word_of(kind, 8, 9, 0, offset);
    calling("kind %" PRIu32 " at word %" PRIu32 ", mask 0x%" PRIx32 ", offset 0x%" PRIx32 ", data of %" PRIu32 " bytes", kind, first + 2,
            mask, offset, l.data_size);
}

static void expect_access(struct layout l, uint32_t kind, uint32_t mask, uint32_t offset, uint32_t number)
{
    for (uint32_t first = 0; first < 2; first++) {
        put_access(l, first, kind, mask, offset);
        expect_verdict(&m, number, number ? first : CC100_NO_PLACE);
    }
}

/* Sums just at the data size and one step over it, by the mask, by the offset and by both; and masks with a hole, whose sums fit. */
static void sums(uint32_t kind, uint32_t size)
{
    uint32_t width = (uint32_t)access_width(kind), rest = size - width, half = size / 2;
    struct layout l = with_data(size);
    int above = size < 65536; /* a mask has 16 bits, and an offset 15 without its sign */
    expect_access(l, kind, 0, 0, 0);
    expect_access(l, kind, rest, 0, 0);
    expect_access(l, kind, rest, width, 22);
    expect_access(l, kind, rest, width * 2, 22);
    if (above)
        expect_access(l, kind, size, 0, 22);
    if (above)
        expect_access(l, kind, 0, rest, rest <= 0x7FFF ? 0 : 22);
    if (above)
        expect_access(l, kind, 0, size, 22);
    if (half >= width) {
        expect_access(l, kind, half, half - width, half == width ? 0 : 25);
        expect_access(l, kind, half - width, half, half <= 0x7FFF ? 0 : 22);
    }
    if (half > width)
        expect_access(l, kind, rest - width, 0, 25);
    expect_access(l, kind, 0xFFFF / width * width, 0x7FFF / width * width, 22);
}

/* Masks and offsets that are not multiples of the width, and offsets below zero. */
static void multiples(uint32_t kind)
{
    uint32_t width = (uint32_t)access_width(kind);
    struct layout l = with_data(65536);
    for (uint32_t i = 0; i < 8; i++) {
        int multiple = i % width == 0, whole = i + width == 1 || i + width == 2 || i + width == 4 || i + width == 8;
        expect_access(usual, kind, i, 0, !multiple ? 22 : whole ? 0 : 25);
        expect_access(usual, kind, 0, i, multiple ? 0 : 22);
        expect_access(usual, kind, i, (8 - i) % 8, !multiple ? 22 : whole ? 0 : 25);
        expect_access(usual, kind, 32 + i, 8 - i, multiple ? 25 : 22);
    }
    expect_access(usual, kind, 32 - width, 0x10000 - width, 22);
    expect_access(usual, kind, 32, 0x10000 - width, 22);
    expect_access(usual, kind, 32, 0xFFE0, 22);
    expect_access(usual, kind, 32, 0x8000, 22);
    expect_access(l, kind, 0, 0x8000, 22);
    expect_access(l, kind, 0, 0x8000 - width, 0);
    expect_access(l, kind, 0x8000, 0x10000 - width, 22);
}

static void accesses(void)
{
    static const uint32_t sizes[] = {4, 8, 64, 32768, 65536};
    for (uint32_t kind = 1; kind <= KINDS; kind++) {
        if (!access_width(kind))
            continue;
        for (size_t i = 0; i < sizeof sizes / sizeof sizes[0]; i++)
            sums(kind, sizes[i]);
        multiples(kind);
    }
}

/* Masks of a guard before JR and JALR: multiples of 16 below the code's size. */
static void jumps(uint32_t kind, uint32_t size)
{
    for (uint32_t mask = 0; mask <= 0xFFFF; mask += mask % 16 == 15 && mask > 64 && mask < 0xFFC0 ? 0xFFC0 - mask : 1) {
        int fits = mask % 16 == 0 && mask + 16 <= size;
        make_quiet(&m, with_code(size));
        put_guard(&m, 0, 31, mask, CODE_REGISTER);
        m.words[2] = word_of(kind, 31, 0, 5, 0);
        calling("kind %" PRIu32 ", mask 0x%" PRIx32 ", code of %" PRIu32 " bytes", kind, mask, size);
        expect_verdict(&m, fits ? CC100_DONE : CC100_REFUSED_JUMP, fits ? CC100_NO_PLACE : 2);
    }
}

/* The guard of LW 9,0(R) or JR R with each register as R and as S. */
static void guard_registers(void)
{
    for (uint32_t r = 0; r < 32; r++)
        for (uint32_t s = 0; s < 32; s++)
            for (int jump = 0; jump < 2; jump++) {
                uint32_t number = r == 0 ? jump ? CC100_REFUSED_JUMP : CC100_REFUSED_ACCESS : CC100_DONE;
                make_quiet(&m, usual);
                put_guard(&m, 0, r, 0, jump ? CODE_REGISTER : DATA_REGISTER);
                m.words[0] = word_of(ANDI, s, r, 0, fitting_mask(jump ? JR : LW));
                m.words[2] = jump ? word_of(JR, r, 0, 0, 0) : word_of(LW, r, 9, 0, 0);
                calling("%s, R %" PRIu32 ", S %" PRIu32, jump ? "JR" : "LW", r, s);
                if (r == DATA_REGISTER || r == CODE_REGISTER)
                    expect_verdict(&m, CC100_REFUSED_BASE_REGISTER, 0);
                else
                    expect_verdict(&m, number, number ? 2 : CC100_NO_PLACE);
            }
}

/* Three words that are nearly a guard and LW 9,0(8), or JR 8. `base` is the register that the right guard has. */
static void near_guards(uint32_t base, uint32_t word, uint32_t number)
{
    const uint32_t mask = fitting_mask(base == DATA_REGISTER ? LW : JR), other = DATA_REGISTER + CODE_REGISTER - base;
    const uint32_t andi = word_of(ANDI, 4, 8, 0, mask), or = word_of(OR, 8, base, 8, 0);
    const uint32_t nearly[][3] = {
        {andi, word_of(OR, base, 8, 8, 0), word},         /* OR 8,26,8 */
        {andi, word_of(OR, 8, other, 8, 0), word},        /* the base of the other area */
        {andi, word_of(OR, 8, 0, 8, 0), word},            /* no base */
        {andi, word_of(OR, 8, base, 7, 0), word},         /* OR into another register */
        {andi, word_of(OR, 7, base, 8, 0), word},         /* OR from another register */
        {andi, or ^ 1, word},                             /* NOR, XOR or ADDU */
        {word_of(ANDI, 8, 7, 0, mask), or, word},         /* ANDI into another register */
        {word_of(ORI, 4, 8, 0, mask), or, word},
        {or, andi, word}, {0, or, word}, {andi, 0, word}, {andi, andi, word}, {or, or, word}, {0, 0, word},
        {andi, or, word ^ 1u << 21},                      /* another register used: 9 */
        {andi, or, (word & ~RS) | base << 21},            /* the base itself used */
    };
    for (size_t i = 0; i < sizeof nearly / sizeof nearly[0]; i++) {
        make_quiet(&m, usual);
        for (int w = 0; w < 3; w++)
            m.words[w] = nearly[i][w];
        calling("guard 0x%08" PRIX32 ", 0x%08" PRIX32 " before 0x%08" PRIX32, nearly[i][0], nearly[i][1], nearly[i][2]);
        expect_verdict(&m, number, 2);
    }
}

/* A whole guard at each word: it and what it guards are in one bundle, or refused. A word more between them is refused too. */
static void guard_places(uint32_t base, uint32_t word, uint32_t number)
{
    for (uint32_t first = 0; first < 12; first++)
        for (uint32_t between = 0; between < 2; between++) {
            uint32_t at = first + 2 + between;
            int fits = between == 0 && first % 4 < 2;
            make_quiet(&m, with_code(64));
            put_guard(&m, first, 8, fitting_mask(base == DATA_REGISTER ? LW : JR), base);
            m.words[at] = word;
            calling("guard at word %" PRIu32 ", 0x%08" PRIX32 " at word %" PRIu32, first, word, at);
            if (at != 14)
                expect_verdict(&m, fits ? CC100_DONE : number, fits ? CC100_NO_PLACE : at);
        }
}

/* The register of the guard may be the one that is loaded, stored or written by SC. */
static void register_used_twice(void)
{
    for (uint32_t kind = 1; kind <= KINDS; kind++)
        if (access_width(kind)) {
            put_access(usual, 0, kind, fitting_mask(kind), 0);
            m.words[2] = word_of(kind, 8, 8, 0, 0);
            expect_accepted(&m);
        }
}

/* A branch or jump at a word to another word. */
static uint32_t to_word(uint32_t kind, uint32_t at, uint32_t target)
{
    return word_of(kind, 5, 0, 0, drawings[kind - 1].value == INDEX ? usual.code_base / 4 + target : target - at - 1);
}

/* Two branches in a row, in one bundle and across two, and with a word between them. */
static void in_slots(uint32_t first, uint32_t second)
{
    for (uint32_t at = 0; at < 5; at++) {
        make_quiet(&m, usual);
        m.words[at] = to_word(first, at, 0);
        m.words[at + 1] = to_word(second, at + 1, 0);
        calling("kinds %" PRIu32 " and %" PRIu32 " at words %" PRIu32 " and %" PRIu32, first, second, at, at + 1);
        expect_verdict(&m, CC100_REFUSED_SLOT, at + 1);
        m.words[at + 2] = m.words[at + 1];
        m.words[at + 1] = 0;
        calling("kinds %" PRIu32 " and %" PRIu32 " at words %" PRIu32 " and %" PRIu32, first, second, at, at + 2);
        if (at < 3)
            expect_accepted(&m);
    }
}

/* The same after JR and JALR, which have their guards before them. */
static void in_slots_of_registers(uint32_t kind, uint32_t second)
{
    for (uint32_t at = 2; at < 4; at++) {
        make_quiet(&m, usual);
        put_guard(&m, at - 2, 8, 16, CODE_REGISTER);
        m.words[at] = word_of(kind, 8, 0, 31, 0);
        m.words[at + 1] = to_word(second, at + 1, 0);
        calling("kind %" PRIu32 " at word %" PRIu32 ", then kind %" PRIu32, kind, at, second);
        expect_verdict(&m, CC100_REFUSED_SLOT, at + 1);
    }
}

static void slots(void)
{
    for (uint32_t second = 1; second <= KINDS; second++) {
        if (!direct(second))
            continue;
        for (uint32_t first = 1; first <= KINDS; first++)
            if (direct(first))
                in_slots(first, second);
        in_slots_of_registers(JR, second);
        in_slots_of_registers(JALR, second);
    }
}

/* Every target around the code, from word 4, where word 2 is guarded and word 7 the last. */
static void targets(uint32_t kind, uint32_t guarded, uint32_t mask, uint32_t base)
{
    for (int target = -3; target < 12; target++) {
        int fits = target == 0 || (target >= 3 && target <= 6);
        make_quiet(&m, usual);
        put_guard(&m, 0, 8, mask, base);
        m.words[2] = guarded;
        m.words[4] = to_word(kind, 4, (uint32_t)target);
        calling("kind %" PRIu32 " to word %d, 0x%08" PRIX32 " at word 2", kind, target, guarded);
        expect_verdict(&m, fits ? CC100_DONE : CC100_REFUSED_TARGET, fits ? CC100_NO_PLACE : 4);
    }
}

static void every_target(void)
{
    for (uint32_t kind = 1; kind <= KINDS; kind++) {
        if (!direct(kind))
            continue;
        for (uint32_t access = 1; access <= KINDS; access++)
            if (access_width(access))
                targets(kind, word_of(access, 8, 9, 0, 4), fitting_mask(access), DATA_REGISTER);
        targets(kind, word_of(JR, 8, 0, 0, 0), fitting_mask(JR), CODE_REGISTER);
        targets(kind, word_of(JALR, 8, 0, 31, 0), fitting_mask(JALR), CODE_REGISTER);
    }
}

/* From the ends of the largest code, at address 0 and elsewhere: targets that wrap around are outside. */
static void far_targets(void)
{
    const struct layout low = {196608, 0, 65536, 0x20000, 64};
    static const struct {
        uint32_t at, word, number;
    } far[] = {
        /* BEQ to words 0, -1, 16382 and 16383; to words 0 and -1 from word 0, and the farthest */
        {16380, 0x1000C003, 0}, {16380, 0x1000C002, 15}, {0, 0x10003FFD, 0}, {0, 0x10003FFE, 15},
        {0, 0x1000FFFF, 0}, {0, 0x1000FFFE, 15}, {0, 0x10008000, 15}, {0, 0x10007FFF, 15},
        /* J to words 16382, 16383 and 16384, and the farthest */
        {0, 0x08003FFE, 0}, {0, 0x08003FFF, 15}, {0, 0x08004000, 15}, {0, 0x0BFFFFFF, 15},
    };
    for (size_t i = 0; i < sizeof far / sizeof far[0]; i++) {
        make_quiet(&m, low);
        m.words[far[i].at] = far[i].word;
        calling("0x%08" PRIX32 " at word %" PRIu32 " of 16384 at address 0", far[i].word, far[i].at);
        expect_verdict(&m, far[i].number, far[i].number ? far[i].at : CC100_NO_PLACE);
    }
    expect_word(0x0BFFC000, CC100_REFUSED_TARGET); /* J 0x0FFF0000 */
    expect_word(0x08000000, CC100_REFUSED_TARGET); /* J 0 */
}

/* Words that look like JR, JALR and an access but are none: a target before them is allowed, and they are refused in their turn. */
static void ordinary_targets(void)
{
    static const uint32_t words[] = {0x00A00048, 0x00A1F809, 0x88000000, 0xCC000000};
    for (size_t i = 0; i < sizeof words / sizeof words[0]; i++) {
        make_quiet(&m, usual);
        m.words[0] = to_word(J, 0, 4);
        m.words[4] = words[i];
        calling("J to word 4, which is 0x%08" PRIX32, words[i]);
        expect_verdict(&m, CC100_REFUSED_NO_INSTRUCTION, 4);
    }
}

static void expect_end(uint32_t word, int ends)
{
    make_quiet(&m, usual);
    put_guard(&m, 4, 8, 16, CODE_REGISTER);
    m.words[6] = word;
    calling("0x%08" PRIX32 " in the last word but one", word);
    expect_verdict(&m, ends ? CC100_DONE : CC100_REFUSED_END, ends ? CC100_NO_PLACE : 6);
}

static void ends(void)
{
    expect_end(word_of(JR, 8, 0, 0, 0), 1);
    expect_end(word_of(JALR, 8, 0, 31, 0), 1);
    for (uint32_t kind = 1; kind <= KINDS; kind++)
        if (direct(kind))
            expect_end(to_word(kind, 6, 0), kind == J || kind == JAL);
    expect_end(0x1000FFF9, 0); /* BEQ 0,0 to word 0 */
    expect_end(0, 0);
    make_quiet(&m, usual);
    m.words[6] = 0;
    m.words[7] = to_word(J, 7, 0);
    calling("J in the last word");
    expect_verdict(&m, CC100_REFUSED_END, 6);
}

void test_words(void)
{
    single_words();
    every_kind();
    accesses();
    for (uint32_t size = 16; size <= 65536; size *= 64)
        for (uint32_t kind = JALR; kind <= JR; kind++)
            jumps(kind, size);
    guard_registers();
    near_guards(DATA_REGISTER, word_of(LW, 8, 9, 0, 0), CC100_REFUSED_ACCESS);
    near_guards(CODE_REGISTER, word_of(JR, 8, 0, 0, 0), CC100_REFUSED_JUMP);
    near_guards(CODE_REGISTER, word_of(JALR, 8, 0, 31, 0), CC100_REFUSED_JUMP);
    guard_places(DATA_REGISTER, word_of(LW, 8, 9, 0, 0), CC100_REFUSED_ACCESS);
    guard_places(CODE_REGISTER, word_of(JR, 8, 0, 0, 0), CC100_REFUSED_JUMP);
    register_used_twice();
    slots();
    every_target();
    far_targets();
    ordinary_targets();
    ends();
}
