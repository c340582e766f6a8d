/* Steps that complete: what they change, by hand, and that nothing else changes. A resume there is refused and changes nothing. */
#include "test.h"

#define MEMORY_LENGTH 64
#define AT 16 /* PC, and next PC is 20 */
#define R5 40
#define R6 0x11223344u
#define OLD 0x8899AABBu /* the word at 44 */

/* What changes: a word of the state and one of memory; {0, 0} names register 0, or a word that is 0 anyway. And the access, from R5. */
struct done {
    const char *name;
    uint32_t word, ll, place, value, address, stored, ll_after, next_pc;
    struct access access;
};
#define NONE {0, 0, 0}

static const struct done all[] = {
    {"SLL 0,0,0", 0x00000000, 1, 0, 0, 0, 0, 1, 24, NONE},
    {"ADDIU 7,5,1", 0x24A70001, 0, CC100_REGISTER(7), R5 + 1, 0, 0, 0, 24, NONE},
    {"ADDIU 0,5,1", 0x24A00001, 0, 0, 0, 0, 0, 0, 24, NONE},
    {"LW 7,4(5)", 0x8CA70004, 1, CC100_REGISTER(7), OLD, 0, 0, 1, 24, {44, 4, 0}},
    {"LB 7,4(5)", 0x80A70004, 0, CC100_REGISTER(7), 0xFFFFFFBB, 0, 0, 0, 24, {44, 1, 0}},
    {"LBU 7,7(5)", 0x90A70007, 0, CC100_REGISTER(7), 0x88, 0, 0, 0, 24, {47, 1, 0}},
    {"LH 7,4(5)", 0x84A70004, 0, CC100_REGISTER(7), 0xFFFFAABB, 0, 0, 0, 24, {44, 2, 0}},
    {"LHU 7,6(5)", 0x94A70006, 0, CC100_REGISTER(7), 0x8899, 0, 0, 0, 24, {46, 2, 0}},
    {"LL 7,4(5)", 0xC0A70004, 0, CC100_REGISTER(7), OLD, 0, 0, 1, 24, {44, 4, 0}},
    {"SW 6,4(5)", 0xACA60004, 1, 0, 0, 44, R6, 1, 24, {44, 4, 1}},
    {"SH 6,4(5)", 0xA4A60004, 0, 0, 0, 44, 0x88993344, 0, 24, {44, 2, 1}},
    {"SB 6,7(5)", 0xA0A60007, 0, 0, 0, 44, 0x4499AABB, 0, 24, {47, 1, 1}},
    {"SC 6,4(5)", 0xE0A60004, 1, CC100_REGISTER(6), 1, 44, R6, 0, 24, {44, 4, 1}},
    {"SC 6,4(5)", 0xE0A60004, 0, CC100_REGISTER(6), 0, 0, 0, 0, 24, NONE},
    {"J 0", 0x08000000, 0, 0, 0, 0, 0, 0, 0, NONE},
    {"JAL 32", 0x0C000008, 0, CC100_REGISTER(31), AT + 8, 0, 0, 0, 32, NONE},
    {"JALR 7,5", 0x00A03809, 0, CC100_REGISTER(7), AT + 8, 0, 0, 0, R5, NONE},
    {"BEQ 0,0 to itself", 0x1000FFFF, 0, 0, 0, 0, 0, 0, AT, NONE},
    {"BLTZAL 5, not taken", 0x04B0FFFF, 0, CC100_REGISTER(31), AT + 8, 0, 0, 0, 24, NONE},
    {"MTHI 5", 0x00A00011, 0, CC100_HI, R5, 0, 0, 0, 24, NONE},
    {"MTLO 5", 0x00A00013, 0, CC100_LO, R5, 0, 0, 0, 24, NONE},
    {"MTC0 5,8", 0x40854000, 0, CC100_BAD_ADDRESS, R5, 0, 0, 0, 24, NONE},
    {"MTC0 6,12", 0x40866000, 0, CC100_STATUS, R6 & 0x1FFF, 0, 0, 0, 24, NONE},
    {"MTC0 5,13", 0x40856800, 0, CC100_CAUSE, R5, 0, 0, 0, 24, NONE},
    {"MTC0 5,14", 0x40857000, 0, CC100_RETURN_ADDRESS, R5, 0, 0, 0, 24, NONE},
    {"RFE", 0x42000010, 1, CC100_STATUS, 0, 0, 0, 0, 24, NONE},
    {"TEQ 5,6", 0x00A60034, 1, 0, 0, 0, 0, 1, 24, NONE},
    {"SYNC", 0x0000000F, 1, 0, 0, 0, 0, 1, 24, NONE},
};

static struct machine before(const struct done *d)
{
    struct machine m = lend(CC100_STATE_LENGTH, MEMORY_LENGTH);
    put_pc(&m, AT);
    put_state(&m, CC100_LL, d->ll);
    put_state(&m, CC100_REGISTER(5), R5);
    put_state(&m, CC100_REGISTER(6), R6);
    put_memory(&m, 0, 0);
    put_memory(&m, AT, d->word);
    put_memory(&m, 44, OLD);
    return m;
}

static void want_done(struct machine *m, const struct done *d)
{
    want_pc(m, AT + 4, d->next_pc);
    want_state(m, d->place, d->value);
    want_state(m, CC100_LL, d->ll_after);
    want_memory(m, d->address, d->stored);
    m->access = d->access;
}

void test_step(void)
{
    for (size_t i = 0; i < sizeof all / sizeof all[0]; i++) {
        struct machine m = before(&all[i]);
        calling("%s", all[i].name);
        expect_resume(&m, CC100_REFUSED_RESUME);
        expect_run(&m, 0, CC100_DONE, 0);
        want_done(&m, &all[i]);
        expect_step(&m, CC100_DONE);
        give_back(&m);
        m = before(&all[i]);
        want_done(&m, &all[i]);
        expect_run(&m, 1, CC100_DONE, 1);
        give_back(&m);
    }
}
