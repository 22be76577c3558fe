/*
 * That the header and the library agree. Calls fill every table with values that all differ,
 * and each must be found at its field; then one field at a time of a state is spoiled, and the
 * library must refuse the state, since that is where it looks. A fact that fails is named.
 */
#include "oberkosz.h"

#include <stdio.h>
#include <string.h>

enum {
    ID = OBERKOSZ_ID_BYTES,
    ENROLMENT = OBERKOSZ_ENROLMENT_BYTES,
    ACE_PAGE = 32,   /* a grant page without its LUACDs */
    LUACD_BYTES = 20,
    HEADER = 28,
    LISTED_TRANSPORT = 15 /* initiators with a list; the last has everything */
};

static const uint64_t KEY = 0x0102030405060708;

static unsigned facts, failures;
static uint8_t ids[OBERKOSZ_INITIATORS * ID];
static uint8_t default_luns[OBERKOSZ_UNITS * OBERKOSZ_LUN_BYTES];
static uint8_t reply[OBERKOSZ_REPORT_BYTES];
static struct oberkosz_state state;

#define HOLDS(fact) holds((fact), #fact, __LINE__)

static void holds(bool fact, const char *text, int at)
{
    facts++;
    if (fact)
        return;
    failures++;
    printf("FAULT: layout.c:%d: %s\n", at, text);
}

static void put64(uint8_t *to, uint64_t number)
{
    for (int k = 0; k < 8; k++)
        to[k] = (uint8_t)(number >> (56 - 8 * k));
}

static bool all_zero(const uint8_t *bytes, size_t size)
{
    for (size_t k = 0; k < size; k++)
        if (bytes[k] != 0)
            return false;
    return true;
}

/* ---- the numbers that are told, all different within a table */
static uint8_t default_lun(size_t unit) { return (uint8_t)(7 * unit + 3); }
static uint8_t listed_unit(size_t ace, size_t k) { return (uint8_t)((ace + k) % 16); }
static uint8_t listed_lun(size_t ace, size_t k) { return (uint8_t)(20 + 3 * ace + 5 * k); }
static uint8_t access_lun(size_t k) { return (uint8_t)(200 + k); }
static uint64_t token_number(size_t k) { return 0xA1B2C3D400000000 + 0x01010101 * (k + 1); }

static void access_id(uint8_t *to, size_t ace)
{
    memset(to, 0, ID);
    for (size_t k = 0; k < 16; k++)
        to[k] = (uint8_t)(0x40 + 11 * ace + k);
}

/* ---- calls */
static struct oberkosz_outcome out(size_t initiator, uint8_t action, const uint8_t *list,
                                   size_t size)
{
    uint8_t cdb[OBERKOSZ_CDB_BYTES] = { OBERKOSZ_ACCESS_CONTROL_OUT, action };
    cdb[12] = (uint8_t)(size >> 8);
    cdb[13] = (uint8_t)size;
    struct oberkosz_outcome o = oberkosz_command(state, initiator, cdb, sizeof cdb, list, size,
                                                 0, reply, 0);
    state = o.state;
    return o;
}

static struct oberkosz_outcome in(size_t initiator, uint8_t action, uint64_t field,
                                  uint64_t random)
{
    uint8_t cdb[OBERKOSZ_CDB_BYTES] = { OBERKOSZ_ACCESS_CONTROL_IN, action };
    put64(cdb + 2, field);
    cdb[12] = 0xFF;
    struct oberkosz_outcome o = oberkosz_command(state, initiator, cdb, sizeof cdb, cdb, 0,
                                                 random, reply, sizeof reply);
    state = o.state;
    return o;
}

static bool good(struct oberkosz_values v)
{
    return v.status == OBERKOSZ_GOOD && v.number == 0 && all_zero(v.sense, sizeof v.sense);
}

static bool refused(struct oberkosz_values v, unsigned number)
{
    return v.status == OBERKOSZ_REFUSED && v.number == number &&
           all_zero(v.sense, sizeof v.sense);
}

static bool checked(struct oberkosz_values v, unsigned code)
{
    return v.status == OBERKOSZ_CHECK_CONDITION && v.number == 0 && v.sense[0] == 0x70 &&
           v.sense[2] == 0x05 && v.sense[7] == 0x0A && OBERKOSZ_CODE(v) == code;
}

/* ---- setup: initiators and units */
static void fresh(void)
{
    for (size_t k = 0; k < sizeof ids; k++)
        ids[k] = (uint8_t)(k % ID == 0 ? k / ID % 2 : k * 5 + k / 256);
    for (size_t u = 0; u < OBERKOSZ_UNITS; u++)
        default_luns[8 * u + 1] = default_lun(u);
    struct oberkosz_outcome o = oberkosz_setup(ids, sizeof ids, default_luns,
                                               sizeof default_luns);
    state = o.state;
    HOLDS(good(o.values));
    HOLDS(o.delivered == 0);
    HOLDS(state.enabled == 0 && state.generation == 0 && state.key == 0);
    HOLDS(state.initiators.count == OBERKOSZ_INITIATORS);
    HOLDS(memcmp(state.initiators.ids, ids, sizeof ids) == 0);
    HOLDS(all_zero(state.initiators.enrolments, sizeof state.initiators.enrolments));
    HOLDS(state.units.count == OBERKOSZ_UNITS);
    for (size_t u = 0; u < OBERKOSZ_UNITS; u++)
        HOLDS(state.units.luns[u] == default_lun(u));
    HOLDS(state.acl.count == 0 && state.tokens.count == 0 && state.proxies.count == 0);
}

/* ---- MANAGE ACL: a list for each TransportID but the last, which has everything, and lists of
 * different lengths for as many AccessIDs */
static size_t put_page(uint8_t *to, uint8_t page, uint8_t kind, const uint8_t *id, size_t luacds)
{
    size_t length = ACE_PAGE - 4 + LUACD_BYTES * luacds;
    to[0] = page;
    to[2] = (uint8_t)(length >> 8);
    to[3] = (uint8_t)length;
    to[5] = kind;
    to[7] = ID;
    memcpy(to + 8, id, ID);
    return ACE_PAGE;
}

static size_t put_luacd(uint8_t *to, uint8_t lun, size_t unit)
{
    to[5] = lun;
    to[13] = default_lun(unit);
    return LUACD_BYTES;
}

static size_t put_transport(uint8_t *to, size_t i)
{
    if (i == LISTED_TRANSPORT)
        return put_page(to, 0x01, OBERKOSZ_TRANSPORT_ID, ids + ID * i, 0);
    size_t n = put_page(to, 0x00, OBERKOSZ_TRANSPORT_ID, ids + ID * i, OBERKOSZ_LUACDS);
    for (size_t k = 0; k < OBERKOSZ_LUACDS; k++)
        n += put_luacd(to + n, listed_lun(i, k), listed_unit(i, k));
    return n;
}

static size_t put_access(uint8_t *to, size_t ace)
{
    uint8_t id[ID];
    access_id(id, ace);
    size_t n = put_page(to, 0x00, OBERKOSZ_ACCESS_ID, id, ace + 1);
    for (size_t k = 0; k <= ace; k++)
        n += put_luacd(to + n, access_lun(k), 16 + k);
    return n;
}

static struct oberkosz_ace *find_ace(uint8_t kind, const uint8_t *id)
{
    for (size_t k = 0; k < state.acl.count && k < OBERKOSZ_ACES; k++)
        if (state.acl.items[k].kind == kind && memcmp(state.acl.items[k].id, id, ID) == 0)
            return &state.acl.items[k];
    return NULL;
}

static bool has_luacd(const struct oberkosz_ace *a, unsigned lun, unsigned unit)
{
    for (size_t k = 0; k < a->count && k < OBERKOSZ_LUACDS; k++)
        if (a->luacds[k].lun == lun && a->luacds[k].unit == unit)
            return true;
    return false;
}

static void held_transport(size_t i)
{
    const struct oberkosz_ace *a = find_ace(OBERKOSZ_TRANSPORT_ID, ids + ID * i);
    HOLDS(a != NULL);
    if (a == NULL)
        return;
    HOLDS(a->extent == (i == LISTED_TRANSPORT ? OBERKOSZ_EVERYTHING : OBERKOSZ_LISTED));
    HOLDS(a->count == (i == LISTED_TRANSPORT ? 0 : OBERKOSZ_LUACDS));
    for (size_t k = 0; a->extent == OBERKOSZ_LISTED && k < OBERKOSZ_LUACDS; k++)
        HOLDS(has_luacd(a, listed_lun(i, k), listed_unit(i, k)));
}

static void held_access(size_t ace)
{
    uint8_t id[ID];
    access_id(id, ace);
    const struct oberkosz_ace *a = find_ace(OBERKOSZ_ACCESS_ID, id);
    HOLDS(a != NULL);
    if (a == NULL)
        return;
    HOLDS(a->extent == OBERKOSZ_LISTED && a->count == ace + 1);
    for (size_t k = 0; k <= ace; k++)
        HOLDS(has_luacd(a, access_lun(k), (unsigned)(16 + k)));
}

static void managed(void)
{
    static uint8_t list[HEADER + OBERKOSZ_ACES * (ACE_PAGE + OBERKOSZ_LUACDS * LUACD_BYTES)];
    size_t n = HEADER;
    put64(list + 12, KEY);
    for (size_t i = 0; i < 16; i++)
        n += put_transport(list + n, i);
    for (size_t ace = 0; ace < 16; ace++)
        n += put_access(list + n, ace);
    HOLDS(good(out(0, OBERKOSZ_OUT_MANAGE_ACL, list, n).values));
    HOLDS(state.enabled == 1 && state.generation == 1 && state.key == KEY);
    HOLDS(state.acl.count == OBERKOSZ_ACES);
    for (size_t k = 0; k < 16; k++) {
        held_transport(k);
        held_access(k);
    }
}

/* ---- enrolments: initiator i under AccessID i, the odd ones pending after a link event */
static void enrolled(void)
{
    for (size_t i = 0; i < LISTED_TRANSPORT; i++) {
        uint8_t id[ID];
        access_id(id, i);
        HOLDS(good(out(i, OBERKOSZ_OUT_ENROLL, id, sizeof id).values));
        if (i % 2 == 1) {
            struct oberkosz_outcome o = oberkosz_link_event(state, i);
            HOLDS(good(o.values) && o.delivered == 0);
            state = o.state;
        }
        const uint8_t *enrolment = state.initiators.enrolments + ENROLMENT * i;
        HOLDS(enrolment[0] == (i % 2 == 1 ? OBERKOSZ_PENDING : OBERKOSZ_ENROLLED));
        HOLDS(memcmp(enrolment + 1, id, ID) == 0);
    }
    HOLDS(state.initiators.enrolments[ENROLMENT * LISTED_TRANSPORT] == OBERKOSZ_NOT_ENROLLED);
}

/* ---- tokens and proxy LUNs: the k-th of initiator k % 15, for its k-th LUACD */
static void tokens_held(void)
{
    for (size_t k = 0; k < OBERKOSZ_TOKENS; k++) {
        size_t i = k % LISTED_TRANSPORT;
        uint64_t lun = (uint64_t)listed_lun(i, k % 16) << 48;
        struct oberkosz_outcome o = in(i, OBERKOSZ_IN_REQUEST_PROXY_TOKEN, lun, token_number(k));
        uint8_t bytes[OBERKOSZ_TOKEN_BYTES];
        put64(bytes, token_number(k));
        HOLDS(good(o.values) && o.delivered == sizeof bytes);
        HOLDS(memcmp(reply, bytes, sizeof bytes) == 0);
        HOLDS(state.tokens.count == k + 1);
    }
    for (size_t k = 0; k < OBERKOSZ_TOKENS; k++) {
        const struct oberkosz_token *t = state.tokens.items;
        while (t < state.tokens.items + OBERKOSZ_TOKENS - 1 && t->number != token_number(k))
            t++;
        HOLDS(t->number == token_number(k));
        HOLDS(t->requester == k % LISTED_TRANSPORT);
        HOLDS(t->lun == listed_lun(k % LISTED_TRANSPORT, k % 16));
        HOLDS(t->unit == listed_unit(k % LISTED_TRANSPORT, k % 16));
    }
}

static void proxies_held(void)
{
    for (size_t k = 0; k < OBERKOSZ_PROXY_LUNS; k++) {
        uint8_t list[16] = { [9] = (uint8_t)(220 + k) };
        put64(list, token_number(k));
        struct oberkosz_outcome o = out(k % 3 * 2, OBERKOSZ_OUT_ASSIGN_PROXY_LUN, list,
                                        sizeof list);
        HOLDS(good(o.values));
        HOLDS(state.proxies.count == k + 1);
    }
    for (size_t k = 0; k < OBERKOSZ_PROXY_LUNS; k++) {
        const struct oberkosz_proxy_lun *p = state.proxies.items;
        while (p < state.proxies.items + OBERKOSZ_PROXY_LUNS - 1 && p->lun != 220 + k)
            p++;
        HOLDS(p->lun == 220 + k);
        HOLDS(p->initiator == k % 3 * 2);
        HOLDS(p->token == token_number(k));
    }
}

/* ---- answers: an opening, the two reports, and what is not GOOD */
static void answers(void)
{
    struct oberkosz_opening open = oberkosz_route(state, 4, (uint64_t)listed_lun(4, 9) << 48);
    HOLDS(good(open.values) && open.unit == listed_unit(4, 9));
    open = oberkosz_route_standing(state, 2, (uint64_t)221 << 48);
    HOLDS(good(open.values) && open.unit == listed_unit(1, 1));
    HOLDS(checked(oberkosz_route(state, 1, (uint64_t)access_lun(1) << 48).values,
                  OBERKOSZ_PENDING_ENROLLED));
    HOLDS(checked(oberkosz_route(state, 0, UINT64_MAX).values, OBERKOSZ_OPENS_NOTHING));
    HOLDS(refused(oberkosz_route(state, OBERKOSZ_INITIATORS, 0).values, OBERKOSZ_NO_INITIATOR));

    /* 15 lists of 16, an ACE of everything, lists of 1 to 16; 32 tokens */
    struct oberkosz_outcome o = in(0, OBERKOSZ_IN_REPORT_ACL, KEY, 0);
    HOLDS(good(o.values) && o.delivered == 8 + 32 * ACE_PAGE + (15 * 16 + 136) * LUACD_BYTES + 644);
    HOLDS(checked(in(0, OBERKOSZ_IN_REPORT_ACL, KEY + 1, 0).values, OBERKOSZ_WRONG_KEY));
    /* rows: T 15 * 16 and 32; A and W 1 to 15; X 32 */
    o = oberkosz_reach(state, reply, sizeof reply);
    HOLDS(good(o.values) && o.delivered == 8 + 4 * (15 * 16 + 32 + 120 + 32));
    HOLDS(refused(oberkosz_reach(state, reply, o.delivered - 1).values, OBERKOSZ_SHORT_BUFFER));
    o = oberkosz_setup(ids, 1, default_luns, 0);
    HOLDS(refused(o.values, OBERKOSZ_BAD_SETUP));
    HOLDS(o.state.initiators.count == 0 && o.state.units.count == 0);
}

/* ---- every other number of the header */
static void numbers(void)
{
    uint8_t list[HEADER] = { 0 };
    uint8_t cdb[OBERKOSZ_CDB_BYTES] = { 0x12 };
    struct oberkosz_outcome o = oberkosz_command(state, 0, cdb, sizeof cdb, list, 0, 0, reply, 0);
    HOLDS(checked(o.values, OBERKOSZ_OTHER_OPERATION));
    o = oberkosz_command(state, 0, cdb, sizeof cdb - 1, list, 0, 0, reply, 0);
    HOLDS(refused(o.values, OBERKOSZ_BAD_CDB));
    o = oberkosz_command(state, 0, cdb, sizeof cdb, list, 1, 0, reply, 0);
    HOLDS(refused(o.values, OBERKOSZ_BAD_PARAMETERS));
    HOLDS(checked(in(0, 0x05, 0, 0).values, OBERKOSZ_INVALID_FIELD));
    HOLDS(checked(in(0, OBERKOSZ_IN_REQUEST_PROXY_TOKEN, (uint64_t)listed_lun(0, 0) << 48, 1).values,
                  OBERKOSZ_NO_ROOM));
    HOLDS(checked(out(0, OBERKOSZ_OUT_DISABLE, list, 11).values, OBERKOSZ_WRONG_LENGTH));
    HOLDS(checked(out(0, OBERKOSZ_OUT_ENROLL, list, ID).values, OBERKOSZ_ENROLLED_ELSEWHERE));
    HOLDS(checked(out(15, OBERKOSZ_OUT_ENROLL, list, ID).values, OBERKOSZ_NO_ACE));
    HOLDS(checked(out(0, OBERKOSZ_OUT_ASSIGN_PROXY_LUN, list, 16).values, OBERKOSZ_DEAD_TOKEN));
    HOLDS(checked(out(0, OBERKOSZ_OUT_RELEASE_PROXY_LUN, list, 8).values, OBERKOSZ_BAD_LUN));
    access_id(list, 0);
    HOLDS(checked(out(15, OBERKOSZ_OUT_ENROLL, list, ID).values, OBERKOSZ_CLASH));
    memset(list, 0, sizeof list);
    put64(list + 4, KEY);
    HOLDS(checked(out(0, OBERKOSZ_OUT_MANAGE_ACL, list, HEADER).values, OBERKOSZ_BAD_LIST));
}

/* ---- what ends: a proxy LUN, a token, all tokens of a LUN, an enrolment, everything */
static void ended(void)
{
    uint8_t lun[8] = { [1] = 220 };
    HOLDS(good(out(0, OBERKOSZ_OUT_RELEASE_PROXY_LUN, lun, sizeof lun).values));
    HOLDS(state.proxies.count == OBERKOSZ_PROXY_LUNS - 1);
    uint8_t token[8];
    put64(token, token_number(1));
    HOLDS(good(out(1, OBERKOSZ_OUT_REVOKE_PROXY_TOKEN, token, sizeof token).values));
    HOLDS(state.tokens.count == OBERKOSZ_TOKENS - 1);
    HOLDS(state.proxies.count == OBERKOSZ_PROXY_LUNS - 2);
    lun[1] = listed_lun(2, 2);
    HOLDS(good(out(2, OBERKOSZ_OUT_REVOKE_ALL_PROXY_TOKENS, lun, sizeof lun).values));
    HOLDS(state.tokens.count == OBERKOSZ_TOKENS - 2);
    HOLDS(good(out(14, OBERKOSZ_OUT_CANCEL_ENROLLMENT, lun, 0).values));
    HOLDS(state.initiators.enrolments[ENROLMENT * 14] == OBERKOSZ_NOT_ENROLLED);
    uint8_t disable[12] = { 0 };
    put64(disable + 4, KEY);
    HOLDS(good(out(0, OBERKOSZ_OUT_DISABLE, disable, sizeof disable).values));
    HOLDS(state.enabled == 0 && state.generation == 0 && state.key == 0);
    HOLDS(state.acl.count == 0 && state.tokens.count == 0 && state.proxies.count == 0);
}

/* ---- the longest replies, to the byte: 32 ACEs alike and 32 tokens, assigned */
static void filled(uint8_t page, size_t luacds)
{
    static uint8_t list[HEADER + OBERKOSZ_ACES * (ACE_PAGE + OBERKOSZ_LUACDS * LUACD_BYTES)];
    memset(list, 0, sizeof list);
    size_t n = HEADER;
    for (size_t ace = 0; ace < OBERKOSZ_ACES; ace++) {
        uint8_t id[ID];
        access_id(id, ace / 2);
        n += put_page(list + n, page, ace % 2, ace % 2 ? ids + ID * (ace / 2) : id, luacds);
        for (size_t k = 0; k < luacds; k++)
            n += put_luacd(list + n, default_lun(k), k);
    }
    HOLDS(good(out(0, OBERKOSZ_OUT_MANAGE_ACL, list, n).values));
    for (size_t i = 0; i < OBERKOSZ_INITIATORS; i++) {
        access_id(list, i);
        HOLDS(good(out(i, OBERKOSZ_OUT_ENROLL, list, ID).values));
    }
    for (size_t k = 0; k < OBERKOSZ_TOKENS; k++) {
        uint8_t assigned[16] = { [9] = (uint8_t)(default_lun(k) + 1) };
        put64(assigned, token_number(k));
        uint64_t lun = (uint64_t)default_lun(0) << 48;
        HOLDS(good(in(0, OBERKOSZ_IN_REQUEST_PROXY_TOKEN, lun, token_number(k)).values));
        HOLDS(good(out(0, OBERKOSZ_OUT_ASSIGN_PROXY_LUN, assigned, sizeof assigned).values));
    }
}

static void longest(void)
{
    fresh();
    filled(0x00, OBERKOSZ_LUACDS);
    HOLDS(in(0, OBERKOSZ_IN_REPORT_ACL, 0, 0).delivered == OBERKOSZ_REPORT_BYTES);
    fresh();
    filled(0x01, 0);
    HOLDS(oberkosz_reach(state, reply, sizeof reply).delivered == OBERKOSZ_REACH_BYTES);
}

/* ---- a spoiled field is seen: refusal 2, and the state comes back with it */
#define SPOILED(field, value)                                                              \
    do {                                                                                   \
        struct oberkosz_state bad = state;                                                 \
        bad.field = (value);                                                               \
        struct oberkosz_outcome back = oberkosz_link_event(bad, 0);                        \
        holds(refused(back.values, OBERKOSZ_BAD_STATE), "refused: " #field, __LINE__);     \
        holds(back.state.field == bad.field, "handed back: " #field, __LINE__);            \
        holds(refused(oberkosz_route(bad, 0, 0).values, OBERKOSZ_BAD_STATE),               \
              "not routed: " #field, __LINE__);                                            \
    } while (0)

static void spoiled(void)
{
    SPOILED(enabled, 0);
    SPOILED(enabled, 2);
    SPOILED(generation, 2);
    SPOILED(initiators.count, OBERKOSZ_INITIATORS + 1);
    SPOILED(initiators.ids[ID * 15], 2);
    SPOILED(initiators.enrolments[ENROLMENT * 14 + 1], 1);
    SPOILED(units.count, OBERKOSZ_UNITS - 1);
    SPOILED(units.luns[31], default_lun(30));
    SPOILED(acl.count, OBERKOSZ_ACES + 1);
    SPOILED(acl.items[31].kind, 2);
    SPOILED(acl.items[31].extent, 2);
    SPOILED(acl.items[0].count, OBERKOSZ_LUACDS + 1);
    SPOILED(acl.items[0].luacds[0].lun, 256);
    SPOILED(acl.items[0].luacds[0].unit, OBERKOSZ_UNITS);
    SPOILED(tokens.count, OBERKOSZ_TOKENS + 1);
    SPOILED(tokens.items[31].number, 0);
    SPOILED(tokens.items[31].unit, OBERKOSZ_UNITS);
    SPOILED(tokens.items[31].requester, OBERKOSZ_INITIATORS);
    SPOILED(tokens.items[31].lun, 256);
    SPOILED(proxies.count, OBERKOSZ_PROXY_LUNS + 1);
    SPOILED(proxies.items[31].initiator, OBERKOSZ_INITIATORS);
    SPOILED(proxies.items[31].lun, 256);
    SPOILED(proxies.items[31].token, 1);
}

/* An ACE that is not in use crosses too: "the next state keeps them all". */
static void spoiled_unused(void)
{
    fresh();
    SPOILED(enabled, 2);
    SPOILED(key, 1);
    SPOILED(acl.items[31].kind, 2);
    SPOILED(acl.items[31].extent, 0xFF);
}

int main(void)
{
    if (!oberkosz_header_fits()) {
        puts("the library's own numbers are not the header's");
        return 1;
    }
    fresh();
    managed();
    enrolled();
    tokens_held();
    proxies_held();
    answers();
    numbers();
    spoiled();
    ended();
    spoiled_unused();
    longest();
    printf("%u facts hold, %u fail\n", facts - failures, failures);
    return failures != 0;
}
