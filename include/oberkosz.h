/*
 * Oberkosz: the access controls coordinator of one SCSI target, proved, for C.
 *
 * "It takes ACCESS CONTROL IN (86h) and ACCESS CONTROL OUT (87h), keeps the ACL, enrolments,
 * proxy tokens and proxy LUNs, says which unit a LUN opens for an initiator, and writes a
 * reach list." How a command comes to the coordinator is the host's affair.
 *
 * HOW TO USE IT. oberkosz_setup gives a state. The state is a value: the host keeps it, hands
 * it in with each call, and keeps the next one, which the outcome holds. The library itself
 * keeps nothing between calls, allocates nothing and asks the system for nothing, so calls on
 * different states may run at the same time; calls on one state go one after the other, since
 * each is told the state that the last one gave.
 *
 * WHAT A CALL OWES THE CALLER. Every call but oberkosz_route_standing has a defined answer for
 * every state, initiator, CDB, parameter list and buffer, so nothing is to be checked before
 * calling. A refusal gives its number, changes no state and writes no byte; a CHECK CONDITION
 * changes nothing either. In both cases the state in the outcome is the one handed in (at
 * setup: a coordinator without initiators and units), so a host can always take it.
 *
 * WHAT THE CALLER OWES. That which C asks of every call: a pointer with a length points to so
 * many bytes; it is not null, even if the length is 0; a lent reply buffer overlaps nothing
 * else that is handed in.
 *
 * LUNs. "A LUN is 00h, nn, then six 00h". In a state a LUN is kept as its first two bytes, as
 * one number (0 to 255); oberkosz_route takes all eight bytes as one big-endian number.
 * Initiators and units are numbered from 0 in setup order.
 *
 * WHAT IT NEEDS. x86-64 with the System V calling convention; of the C library memcpy, memmove
 * and memset alone; and stack, which is measured and not proved: some 135 KB for a command
 * (MANAGE ACL takes the most), some 25 KB for oberkosz_route_standing.
 */
#ifndef OBERKOSZ_H
#define OBERKOSZ_H

#include <stdbool.h>
#include <stddef.h>
#include <stdint.h>

#ifdef __cplusplus
extern "C" {
#endif

/* ---- Sizes ---------------------------------------------------------------------------------
 * "16 initiators, 32 units, 32 ACEs, 16 LUACDs standing in one ACE, 32 live tokens, 32 proxy
 * LUNs over all initiators. Zero initiators or units is allowed." */
enum {
    OBERKOSZ_INITIATORS = 16,
    OBERKOSZ_UNITS = 32,
    OBERKOSZ_ACES = 32,
    OBERKOSZ_LUACDS = 16,
    OBERKOSZ_TOKENS = 32,
    OBERKOSZ_PROXY_LUNS = 32,
    OBERKOSZ_CDB_BYTES = 16,
    OBERKOSZ_ID_BYTES = 24,        /* a TransportID or AccessID identifier */
    OBERKOSZ_ENROLMENT_BYTES = 25, /* its stage, then the AccessID */
    OBERKOSZ_LUN_BYTES = 8,
    OBERKOSZ_SENSE_BYTES = 18,
    /* A buffer of so many bytes is never refused as too short. */
    OBERKOSZ_REPORT_BYTES = 11916, /* REPORT ACL: 8, 32 ACEs of 352, a proxy page of 644 */
    OBERKOSZ_REACH_BYTES = 4232,   /* reach list: 8, and 1056 rows of 4 */
    OBERKOSZ_TOKEN_BYTES = 8       /* REQUEST PROXY TOKEN; no other command delivers a byte */
};

/* ---- Statuses ------------------------------------------------------------------------------ */
enum {
    OBERKOSZ_GOOD = 0x00,            /* the sense is all zero */
    OBERKOSZ_CHECK_CONDITION = 0x02, /* the sense says why */
    OBERKOSZ_REFUSED = 0xFF          /* a house refusal: no SCSI status; the number says why */
};

/* ---- House refusals, "tested in this order" ------------------------------------------------
 * The number is 0 where nothing is refused. */
enum {
    /* "setup breaks the rules (at setup only); a coordinator without initiators and units
     * comes back" */
    OBERKOSZ_BAD_SETUP = 1,
    /* "the state handed in breaks a standing rule: a setup rule, a count over its size, an
     * identifier in two ACEs of its type, a token or one initiator's proxy LUN present twice,
     * a LUN or unit twice in one ACE, a list without LUACDs, a malformed LUN or identifier, a
     * zero token, a reference to an absent unit, initiator, token or enrolled AccessID, a
     * clash, DLgeneration not 0 disabled or 1 enabled, or an ACE, token or nonzero key while
     * disabled"; or enabled, or kind or extent of an ACE, in use or not, is neither 0 nor 1 */
    OBERKOSZ_BAD_STATE = 2,
    /* "no such initiator" */
    OBERKOSZ_NO_INITIATOR = 3,
    /* "the CDB is not 16 bytes" */
    OBERKOSZ_BAD_CDB = 4,
    /* "parameter bytes given differ in number from CDB bytes 10-13 (OUT), or from 0 (any
     * other operation code)" */
    OBERKOSZ_BAD_PARAMETERS = 5,
    /* "the command would be GOOD, or the reach list made, but the lent buffer is shorter than
     * the bytes to deliver" */
    OBERKOSZ_SHORT_BUFFER = 6
};

/* ---- Sense ---------------------------------------------------------------------------------
 * "Always 18 bytes, fixed format: 70h, key 05h at byte 2, 0Ah at byte 7, code and qualifier at
 * 12 and 13, other bytes zero." The constants are code * 256 + qualifier, as OBERKOSZ_CODE
 * reads them from a struct oberkosz_values. */
#define OBERKOSZ_CODE(values) ((unsigned)(values).sense[12] << 8 | (values).sense[13])
enum {
    OBERKOSZ_OTHER_OPERATION = 0x2000, /* operation code other than 86h, 87h */
    OBERKOSZ_INVALID_FIELD = 0x2400,   /* unsupported service action; CANCEL with a parameter
                                          list; REQUEST PROXY TOKEN with allocation length
                                          under 8 */
    OBERKOSZ_WRONG_LENGTH = 0x1A00,    /* list of a wrong length; ACE page cut off */
    OBERKOSZ_WRONG_KEY = 0x2003,
    OBERKOSZ_BAD_LIST = 0x2600,        /* malformed list */
    OBERKOSZ_PENDING_ENROLLED = 0x2001,
    OBERKOSZ_NO_ACE = 0x2002,          /* AccessID has no ACE */
    OBERKOSZ_ENROLLED_ELSEWHERE = 0x2008, /* already enrolled or pending under another AccessID */
    OBERKOSZ_BAD_LUN = 0x2009,         /* LUN or default LUN not valid */
    OBERKOSZ_DEAD_TOKEN = 0x200A,      /* token not live */
    OBERKOSZ_CLASH = 0x200B,
    OBERKOSZ_NO_ROOM = 0x5505,
    OBERKOSZ_OPENS_NOTHING = 0x2500    /* the LUN opens nothing (from the route question only) */
};

/* ---- Commands ------------------------------------------------------------------------------
 * The operation code is byte 0 of the CDB, the service action byte 1. */
enum {
    OBERKOSZ_ACCESS_CONTROL_IN = 0x86,
    OBERKOSZ_ACCESS_CONTROL_OUT = 0x87,

    OBERKOSZ_IN_REPORT_ACL = 0x00,
    OBERKOSZ_IN_REQUEST_PROXY_TOKEN = 0x04,

    OBERKOSZ_OUT_MANAGE_ACL = 0x00,
    OBERKOSZ_OUT_DISABLE = 0x01,
    OBERKOSZ_OUT_ENROLL = 0x02,
    OBERKOSZ_OUT_CANCEL_ENROLLMENT = 0x03,
    OBERKOSZ_OUT_REVOKE_PROXY_TOKEN = 0x07,
    OBERKOSZ_OUT_REVOKE_ALL_PROXY_TOKENS = 0x08,
    OBERKOSZ_OUT_ASSIGN_PROXY_LUN = 0x09,
    OBERKOSZ_OUT_RELEASE_PROXY_LUN = 0x0A
};

/* ---- The state -----------------------------------------------------------------------------
 * Of each table the first `count` entries are in use. A host that only routes and answers
 * commands never looks inside. */

/* A unit at a LUN. */
struct oberkosz_luacd {
    uint16_t lun;
    uint8_t unit;
};

/* What an identifier is, and what an ACE holds: "either a list or everything". */
enum {
    OBERKOSZ_ACCESS_ID = 0,
    OBERKOSZ_TRANSPORT_ID = 1,
    OBERKOSZ_LISTED = 0,
    OBERKOSZ_EVERYTHING = 1 /* all units, each at its default LUN; it has no LUACDs */
};

struct oberkosz_ace {
    uint8_t kind;
    uint8_t extent;
    uint8_t id[OBERKOSZ_ID_BYTES];
    size_t count;
    struct oberkosz_luacd luacds[OBERKOSZ_LUACDS];
};

struct oberkosz_acl {
    size_t count;
    struct oberkosz_ace items[OBERKOSZ_ACES];
};

/* A live token: its number, the unit that it opens, who got it and by naming which LUN. */
struct oberkosz_token {
    uint64_t number;
    uint8_t unit;
    uint8_t requester;
    uint16_t lun;
};

struct oberkosz_tokens {
    size_t count;
    struct oberkosz_token items[OBERKOSZ_TOKENS];
};

/* A proxy LUN: whose it is, and the number of the live token that it stands on. */
struct oberkosz_proxy_lun {
    uint8_t initiator;
    uint16_t lun;
    uint64_t token;
};

struct oberkosz_proxy_luns {
    size_t count;
    struct oberkosz_proxy_lun items[OBERKOSZ_PROXY_LUNS];
};

/* "States: not-enrolled, enrolled, pending": the first byte of an enrolment. */
enum {
    OBERKOSZ_NOT_ENROLLED = 0,
    OBERKOSZ_ENROLLED = 1,
    OBERKOSZ_PENDING = 2
};

/* The TransportIDs one after the other, and the enrolments, each its stage and the AccessID. */
struct oberkosz_initiators {
    size_t count;
    uint8_t ids[OBERKOSZ_INITIATORS * OBERKOSZ_ID_BYTES];
    uint8_t enrolments[OBERKOSZ_INITIATORS * OBERKOSZ_ENROLMENT_BYTES];
};

/* The units' default LUNs. */
struct oberkosz_units {
    size_t count;
    uint16_t luns[OBERKOSZ_UNITS];
};

struct oberkosz_state {
    uint8_t enabled;     /* 0 disabled, 1 enabled */
    uint32_t generation; /* DLgeneration: 0 disabled, 1 enabled */
    uint64_t key;
    struct oberkosz_initiators initiators;
    struct oberkosz_units units;
    struct oberkosz_acl acl;
    struct oberkosz_tokens tokens;
    struct oberkosz_proxy_luns proxies;
};

/* ---- Answers ------------------------------------------------------------------------------- */

/* The values of an answer: its status, the number of its refusal, its sense. */
struct oberkosz_values {
    uint8_t status;
    uint8_t number;
    uint8_t sense[OBERKOSZ_SENSE_BYTES];
};

/* The next state, the values of the answer, and how many bytes of the lent buffer were
 * delivered, from its first on. "The rest of the lent buffer keeps its bytes." */
struct oberkosz_outcome {
    struct oberkosz_state state;
    struct oberkosz_values values;
    size_t delivered;
};

/* What a LUN opens: the unit, if the status is GOOD; otherwise the unit says nothing. */
struct oberkosz_opening {
    uint8_t unit;
    struct oberkosz_values values;
};

/* ---- Calls --------------------------------------------------------------------------------- */

/* A new coordinator. "A setup lists the initiators' 24-byte TransportIDs, all different and
 * valid, and the units' default LUNs, all different", each one after the other, eight bytes a
 * LUN. "A TransportID is 24 bytes and starts with 00h (Fibre Channel) or 01h (parallel SCSI)."
 * "A fresh coordinator is disabled and starts with every table empty." GOOD, or refusal 1. */
struct oberkosz_outcome oberkosz_setup(const uint8_t *ids, size_t ids_bytes,
                                       const uint8_t *luns, size_t luns_bytes);

/* An initiator sends a CDB with the parameter bytes `list`; `random` is the 64-bit number that
 * becomes the token if the command is REQUEST PROXY TOKEN ("zero or a live token": no room).
 * GOOD, CHECK CONDITION, or a refusal 2 to 6. With GOOD the first `delivered` bytes of `reply`
 * are the data: "the first allocation-length bytes; inner lengths do not shrink". */
struct oberkosz_outcome oberkosz_command(struct oberkosz_state state, size_t initiator,
                                         const uint8_t *cdb, size_t cdb_bytes,
                                         const uint8_t *list, size_t list_bytes,
                                         uint64_t random,
                                         uint8_t *reply, size_t reply_bytes);

/* "A link event told by the host turns that initiator from enrolled to pending." GOOD, or
 * refusal 2 or 3. */
struct oberkosz_outcome oberkosz_link_event(struct oberkosz_state state, size_t initiator);

/* The reach list: every row of every initiator. "4-byte length of what follows, version 01h,
 * 00h disabled or 01h enabled, 2-byte row count; then four bytes a row: initiator, nn, unit,
 * ground in ASCII. Ascending by those four. Big-endian." Grounds: T its TransportID's ACE, A
 * its AccessID's ACE when enrolled, W the same when pending, X a proxy LUN, O access controls
 * off. W opens nothing. GOOD, or refusal 2 or 6. */
struct oberkosz_outcome oberkosz_reach(struct oberkosz_state state,
                                       uint8_t *reply, size_t reply_bytes);

/* "Route: the unit of a T, A, X or O row with that LUN; else 20h/01h if W has it; else
 * 25h/00h." GOOD, CHECK CONDITION, or refusal 2 or 3. No state changes. */
struct oberkosz_opening oberkosz_route(struct oberkosz_state state, size_t initiator,
                                       uint64_t lun);

/* The same, for a state that this library handed back and that was not changed since: such a
 * state breaks no standing rule, which is proved, so that they need not be tested again for
 * each command to a unit. Refusal 2 is never given. Of a state from anywhere else (a disk, a
 * peer) ask oberkosz_route: with a state that breaks a rule this call owes nothing. */
struct oberkosz_opening oberkosz_route_standing(struct oberkosz_state state, size_t initiator,
                                                uint64_t lun);

/* ---- Layout --------------------------------------------------------------------------------
 * What the library was built with, in bytes. If a compiler lays a struct out in another way,
 * it stops here. */
#define OBERKOSZ_LAYOUT_LUACD 4
#define OBERKOSZ_LAYOUT_LUACD_LUN 0
#define OBERKOSZ_LAYOUT_LUACD_UNIT 2
#define OBERKOSZ_LAYOUT_ACE 104
#define OBERKOSZ_LAYOUT_ACE_KIND 0
#define OBERKOSZ_LAYOUT_ACE_EXTENT 1
#define OBERKOSZ_LAYOUT_ACE_ID 2
#define OBERKOSZ_LAYOUT_ACE_COUNT 32
#define OBERKOSZ_LAYOUT_ACE_LUACDS 40
#define OBERKOSZ_LAYOUT_ACL 3336
#define OBERKOSZ_LAYOUT_ACL_COUNT 0
#define OBERKOSZ_LAYOUT_ACL_ITEMS 8
#define OBERKOSZ_LAYOUT_TOKEN 16
#define OBERKOSZ_LAYOUT_TOKEN_NUMBER 0
#define OBERKOSZ_LAYOUT_TOKEN_UNIT 8
#define OBERKOSZ_LAYOUT_TOKEN_REQUESTER 9
#define OBERKOSZ_LAYOUT_TOKEN_LUN 10
#define OBERKOSZ_LAYOUT_TOKENS 520
#define OBERKOSZ_LAYOUT_TOKENS_COUNT 0
#define OBERKOSZ_LAYOUT_TOKENS_ITEMS 8
#define OBERKOSZ_LAYOUT_PROXY_LUN 16
#define OBERKOSZ_LAYOUT_PROXY_LUN_INITIATOR 0
#define OBERKOSZ_LAYOUT_PROXY_LUN_LUN 2
#define OBERKOSZ_LAYOUT_PROXY_LUN_TOKEN 8
#define OBERKOSZ_LAYOUT_PROXY_LUNS 520
#define OBERKOSZ_LAYOUT_PROXY_LUNS_COUNT 0
#define OBERKOSZ_LAYOUT_PROXY_LUNS_ITEMS 8
#define OBERKOSZ_LAYOUT_INITIATORS 792
#define OBERKOSZ_LAYOUT_INITIATORS_COUNT 0
#define OBERKOSZ_LAYOUT_INITIATORS_IDS 8
#define OBERKOSZ_LAYOUT_INITIATORS_ENROLMENTS 392
#define OBERKOSZ_LAYOUT_UNITS 72
#define OBERKOSZ_LAYOUT_UNITS_COUNT 0
#define OBERKOSZ_LAYOUT_UNITS_LUNS 8
#define OBERKOSZ_LAYOUT_STATE 5256
#define OBERKOSZ_LAYOUT_STATE_ENABLED 0
#define OBERKOSZ_LAYOUT_STATE_GENERATION 4
#define OBERKOSZ_LAYOUT_STATE_KEY 8
#define OBERKOSZ_LAYOUT_STATE_INITIATORS 16
#define OBERKOSZ_LAYOUT_STATE_UNITS 808
#define OBERKOSZ_LAYOUT_STATE_ACL 880
#define OBERKOSZ_LAYOUT_STATE_TOKENS 4216
#define OBERKOSZ_LAYOUT_STATE_PROXIES 4736
#define OBERKOSZ_LAYOUT_VALUES 20
#define OBERKOSZ_LAYOUT_VALUES_STATUS 0
#define OBERKOSZ_LAYOUT_VALUES_NUMBER 1
#define OBERKOSZ_LAYOUT_VALUES_SENSE 2
#define OBERKOSZ_LAYOUT_OUTCOME 5288
#define OBERKOSZ_LAYOUT_OUTCOME_STATE 0
#define OBERKOSZ_LAYOUT_OUTCOME_VALUES 5256
#define OBERKOSZ_LAYOUT_OUTCOME_DELIVERED 5280
#define OBERKOSZ_LAYOUT_OPENING 21
#define OBERKOSZ_LAYOUT_OPENING_UNIT 0
#define OBERKOSZ_LAYOUT_OPENING_VALUES 1

/* The same numbers as the library has them, in the order of the table; 0 behind its end. */
size_t oberkosz_layout(size_t entry);

/* Whether this header is the one that the library was built with. Ask it once, before the first
 * call: what would be read of a state with another header is nothing. */
static inline bool oberkosz_header_fits(void)
{
    static const size_t numbers[] = {
        OBERKOSZ_LAYOUT_LUACD, OBERKOSZ_LAYOUT_LUACD_LUN, OBERKOSZ_LAYOUT_LUACD_UNIT,
        OBERKOSZ_LAYOUT_ACE, OBERKOSZ_LAYOUT_ACE_KIND, OBERKOSZ_LAYOUT_ACE_EXTENT,
        OBERKOSZ_LAYOUT_ACE_ID, OBERKOSZ_LAYOUT_ACE_COUNT, OBERKOSZ_LAYOUT_ACE_LUACDS,
        OBERKOSZ_LAYOUT_ACL, OBERKOSZ_LAYOUT_ACL_COUNT, OBERKOSZ_LAYOUT_ACL_ITEMS,
        OBERKOSZ_LAYOUT_TOKEN, OBERKOSZ_LAYOUT_TOKEN_NUMBER, OBERKOSZ_LAYOUT_TOKEN_UNIT,
        OBERKOSZ_LAYOUT_TOKEN_REQUESTER, OBERKOSZ_LAYOUT_TOKEN_LUN, OBERKOSZ_LAYOUT_TOKENS,
        OBERKOSZ_LAYOUT_TOKENS_COUNT, OBERKOSZ_LAYOUT_TOKENS_ITEMS, OBERKOSZ_LAYOUT_PROXY_LUN,
        OBERKOSZ_LAYOUT_PROXY_LUN_INITIATOR, OBERKOSZ_LAYOUT_PROXY_LUN_LUN,
        OBERKOSZ_LAYOUT_PROXY_LUN_TOKEN, OBERKOSZ_LAYOUT_PROXY_LUNS,
        OBERKOSZ_LAYOUT_PROXY_LUNS_COUNT, OBERKOSZ_LAYOUT_PROXY_LUNS_ITEMS,
        OBERKOSZ_LAYOUT_INITIATORS, OBERKOSZ_LAYOUT_INITIATORS_COUNT,
        OBERKOSZ_LAYOUT_INITIATORS_IDS, OBERKOSZ_LAYOUT_INITIATORS_ENROLMENTS,
        OBERKOSZ_LAYOUT_UNITS, OBERKOSZ_LAYOUT_UNITS_COUNT, OBERKOSZ_LAYOUT_UNITS_LUNS,
        OBERKOSZ_LAYOUT_STATE, OBERKOSZ_LAYOUT_STATE_ENABLED,
        OBERKOSZ_LAYOUT_STATE_GENERATION, OBERKOSZ_LAYOUT_STATE_KEY,
        OBERKOSZ_LAYOUT_STATE_INITIATORS, OBERKOSZ_LAYOUT_STATE_UNITS,
        OBERKOSZ_LAYOUT_STATE_ACL, OBERKOSZ_LAYOUT_STATE_TOKENS,
        OBERKOSZ_LAYOUT_STATE_PROXIES, OBERKOSZ_LAYOUT_VALUES, OBERKOSZ_LAYOUT_VALUES_STATUS,
        OBERKOSZ_LAYOUT_VALUES_NUMBER, OBERKOSZ_LAYOUT_VALUES_SENSE, OBERKOSZ_LAYOUT_OUTCOME,
        OBERKOSZ_LAYOUT_OUTCOME_STATE, OBERKOSZ_LAYOUT_OUTCOME_VALUES,
        OBERKOSZ_LAYOUT_OUTCOME_DELIVERED, OBERKOSZ_LAYOUT_OPENING,
        OBERKOSZ_LAYOUT_OPENING_UNIT, OBERKOSZ_LAYOUT_OPENING_VALUES,
    };
    const size_t count = sizeof numbers / sizeof *numbers;
    for (size_t entry = 0; entry < count; entry++)
        if (oberkosz_layout(entry) != numbers[entry])
            return false;
    return oberkosz_layout(count) == 0;
}

#ifdef __cplusplus
#define OBERKOSZ_HOLD(what) static_assert(what, #what)
#else
#define OBERKOSZ_HOLD(what) _Static_assert(what, #what)
#endif
#define OBERKOSZ_HOLD_SIZE(type, bytes) OBERKOSZ_HOLD(sizeof(struct type) == bytes)
#define OBERKOSZ_HOLD_FIELD(type, field, at) OBERKOSZ_HOLD(offsetof(struct type, field) == at)

OBERKOSZ_HOLD_SIZE(oberkosz_luacd, OBERKOSZ_LAYOUT_LUACD);
OBERKOSZ_HOLD_FIELD(oberkosz_luacd, lun, OBERKOSZ_LAYOUT_LUACD_LUN);
OBERKOSZ_HOLD_FIELD(oberkosz_luacd, unit, OBERKOSZ_LAYOUT_LUACD_UNIT);
OBERKOSZ_HOLD_SIZE(oberkosz_ace, OBERKOSZ_LAYOUT_ACE);
OBERKOSZ_HOLD_FIELD(oberkosz_ace, kind, OBERKOSZ_LAYOUT_ACE_KIND);
OBERKOSZ_HOLD_FIELD(oberkosz_ace, extent, OBERKOSZ_LAYOUT_ACE_EXTENT);
OBERKOSZ_HOLD_FIELD(oberkosz_ace, id, OBERKOSZ_LAYOUT_ACE_ID);
OBERKOSZ_HOLD_FIELD(oberkosz_ace, count, OBERKOSZ_LAYOUT_ACE_COUNT);
OBERKOSZ_HOLD_FIELD(oberkosz_ace, luacds, OBERKOSZ_LAYOUT_ACE_LUACDS);
OBERKOSZ_HOLD_SIZE(oberkosz_acl, OBERKOSZ_LAYOUT_ACL);
OBERKOSZ_HOLD_FIELD(oberkosz_acl, count, OBERKOSZ_LAYOUT_ACL_COUNT);
OBERKOSZ_HOLD_FIELD(oberkosz_acl, items, OBERKOSZ_LAYOUT_ACL_ITEMS);
OBERKOSZ_HOLD_SIZE(oberkosz_token, OBERKOSZ_LAYOUT_TOKEN);
OBERKOSZ_HOLD_FIELD(oberkosz_token, number, OBERKOSZ_LAYOUT_TOKEN_NUMBER);
OBERKOSZ_HOLD_FIELD(oberkosz_token, unit, OBERKOSZ_LAYOUT_TOKEN_UNIT);
OBERKOSZ_HOLD_FIELD(oberkosz_token, requester, OBERKOSZ_LAYOUT_TOKEN_REQUESTER);
OBERKOSZ_HOLD_FIELD(oberkosz_token, lun, OBERKOSZ_LAYOUT_TOKEN_LUN);
OBERKOSZ_HOLD_SIZE(oberkosz_tokens, OBERKOSZ_LAYOUT_TOKENS);
OBERKOSZ_HOLD_FIELD(oberkosz_tokens, count, OBERKOSZ_LAYOUT_TOKENS_COUNT);
OBERKOSZ_HOLD_FIELD(oberkosz_tokens, items, OBERKOSZ_LAYOUT_TOKENS_ITEMS);
OBERKOSZ_HOLD_SIZE(oberkosz_proxy_lun, OBERKOSZ_LAYOUT_PROXY_LUN);
OBERKOSZ_HOLD_FIELD(oberkosz_proxy_lun, initiator, OBERKOSZ_LAYOUT_PROXY_LUN_INITIATOR);
OBERKOSZ_HOLD_FIELD(oberkosz_proxy_lun, lun, OBERKOSZ_LAYOUT_PROXY_LUN_LUN);
OBERKOSZ_HOLD_FIELD(oberkosz_proxy_lun, token, OBERKOSZ_LAYOUT_PROXY_LUN_TOKEN);
OBERKOSZ_HOLD_SIZE(oberkosz_proxy_luns, OBERKOSZ_LAYOUT_PROXY_LUNS);
OBERKOSZ_HOLD_FIELD(oberkosz_proxy_luns, count, OBERKOSZ_LAYOUT_PROXY_LUNS_COUNT);
OBERKOSZ_HOLD_FIELD(oberkosz_proxy_luns, items, OBERKOSZ_LAYOUT_PROXY_LUNS_ITEMS);
OBERKOSZ_HOLD_SIZE(oberkosz_initiators, OBERKOSZ_LAYOUT_INITIATORS);
OBERKOSZ_HOLD_FIELD(oberkosz_initiators, count, OBERKOSZ_LAYOUT_INITIATORS_COUNT);
OBERKOSZ_HOLD_FIELD(oberkosz_initiators, ids, OBERKOSZ_LAYOUT_INITIATORS_IDS);
OBERKOSZ_HOLD_FIELD(oberkosz_initiators, enrolments, OBERKOSZ_LAYOUT_INITIATORS_ENROLMENTS);
OBERKOSZ_HOLD_SIZE(oberkosz_units, OBERKOSZ_LAYOUT_UNITS);
OBERKOSZ_HOLD_FIELD(oberkosz_units, count, OBERKOSZ_LAYOUT_UNITS_COUNT);
OBERKOSZ_HOLD_FIELD(oberkosz_units, luns, OBERKOSZ_LAYOUT_UNITS_LUNS);
OBERKOSZ_HOLD_SIZE(oberkosz_state, OBERKOSZ_LAYOUT_STATE);
OBERKOSZ_HOLD_FIELD(oberkosz_state, enabled, OBERKOSZ_LAYOUT_STATE_ENABLED);
OBERKOSZ_HOLD_FIELD(oberkosz_state, generation, OBERKOSZ_LAYOUT_STATE_GENERATION);
OBERKOSZ_HOLD_FIELD(oberkosz_state, key, OBERKOSZ_LAYOUT_STATE_KEY);
OBERKOSZ_HOLD_FIELD(oberkosz_state, initiators, OBERKOSZ_LAYOUT_STATE_INITIATORS);
OBERKOSZ_HOLD_FIELD(oberkosz_state, units, OBERKOSZ_LAYOUT_STATE_UNITS);
OBERKOSZ_HOLD_FIELD(oberkosz_state, acl, OBERKOSZ_LAYOUT_STATE_ACL);
OBERKOSZ_HOLD_FIELD(oberkosz_state, tokens, OBERKOSZ_LAYOUT_STATE_TOKENS);
OBERKOSZ_HOLD_FIELD(oberkosz_state, proxies, OBERKOSZ_LAYOUT_STATE_PROXIES);
OBERKOSZ_HOLD_SIZE(oberkosz_values, OBERKOSZ_LAYOUT_VALUES);
OBERKOSZ_HOLD_FIELD(oberkosz_values, status, OBERKOSZ_LAYOUT_VALUES_STATUS);
OBERKOSZ_HOLD_FIELD(oberkosz_values, number, OBERKOSZ_LAYOUT_VALUES_NUMBER);
OBERKOSZ_HOLD_FIELD(oberkosz_values, sense, OBERKOSZ_LAYOUT_VALUES_SENSE);
OBERKOSZ_HOLD_SIZE(oberkosz_outcome, OBERKOSZ_LAYOUT_OUTCOME);
OBERKOSZ_HOLD_FIELD(oberkosz_outcome, state, OBERKOSZ_LAYOUT_OUTCOME_STATE);
OBERKOSZ_HOLD_FIELD(oberkosz_outcome, values, OBERKOSZ_LAYOUT_OUTCOME_VALUES);
OBERKOSZ_HOLD_FIELD(oberkosz_outcome, delivered, OBERKOSZ_LAYOUT_OUTCOME_DELIVERED);
OBERKOSZ_HOLD_SIZE(oberkosz_opening, OBERKOSZ_LAYOUT_OPENING);
OBERKOSZ_HOLD_FIELD(oberkosz_opening, unit, OBERKOSZ_LAYOUT_OPENING_UNIT);
OBERKOSZ_HOLD_FIELD(oberkosz_opening, values, OBERKOSZ_LAYOUT_OPENING_VALUES);

#ifdef __cplusplus
}
#endif

#endif
