/* The calls of the library, each made by `measure` (tests/c/wrapped.h). */
#include "wrapped.h"

#include "oberkosz.h"

/* One call at a time: what it is given, and what it gives back. */
static struct {
    struct oberkosz_state state;
    size_t initiator, first_size, second_size, reply_size;
    const uint8_t *first, *second;
    uint8_t *reply;
    uint64_t number;
    struct oberkosz_outcome outcome;
    struct oberkosz_opening opening;
} now;

static struct measured setup = { "oberkosz_setup", 0 }, command = { "oberkosz_command", 0 },
                       link_event = { "oberkosz_link_event", 0 }, reach = { "oberkosz_reach", 0 },
                       route = { "oberkosz_route", 0 }, route_standing = { "oberkosz_route_standing", 0 };

struct measured *const all_measured[] = { &setup, &command, &link_event, &reach, &route, &route_standing };
const size_t measured_count = sizeof all_measured / sizeof *all_measured;

struct oberkosz_outcome __real_oberkosz_setup(const uint8_t *, size_t, const uint8_t *, size_t);
struct oberkosz_outcome __real_oberkosz_command(struct oberkosz_state, size_t, const uint8_t *, size_t, const uint8_t *, size_t, uint64_t, uint8_t *, size_t);
struct oberkosz_outcome __real_oberkosz_link_event(struct oberkosz_state, size_t);
struct oberkosz_outcome __real_oberkosz_reach(struct oberkosz_state, uint8_t *, size_t);
struct oberkosz_opening __real_oberkosz_route(struct oberkosz_state, size_t, uint64_t);
struct oberkosz_opening __real_oberkosz_route_standing(struct oberkosz_state, size_t, uint64_t);

static void call_setup(void)
{
    now.outcome = __real_oberkosz_setup(now.first, now.first_size, now.second, now.second_size);
}

static void call_command(void)
{
    now.outcome = __real_oberkosz_command(now.state, now.initiator, now.first, now.first_size, now.second, now.second_size,
                                          now.number, now.reply, now.reply_size);
}

static void call_link_event(void) { now.outcome = __real_oberkosz_link_event(now.state, now.initiator); }

static void call_reach(void) { now.outcome = __real_oberkosz_reach(now.state, now.reply, now.reply_size); }

static void call_route(void) { now.opening = __real_oberkosz_route(now.state, now.initiator, now.number); }

static void call_route_standing(void)
{
    now.opening = __real_oberkosz_route_standing(now.state, now.initiator, now.number);
}

struct oberkosz_outcome __wrap_oberkosz_setup(const uint8_t *ids, size_t ids_size, const uint8_t *luns, size_t luns_size)
{
    now.first = ids;
    now.first_size = ids_size;
    now.second = luns;
    now.second_size = luns_size;
    measure(&setup, call_setup);
    return now.outcome;
}

struct oberkosz_outcome __wrap_oberkosz_command(struct oberkosz_state state, size_t initiator, const uint8_t *cdb, size_t cdb_size,
                                                const uint8_t *list, size_t list_size, uint64_t random, uint8_t *reply, size_t reply_size)
{
    now.state = state;
    now.initiator = initiator;
    now.first = cdb;
    now.first_size = cdb_size;
    now.second = list;
    now.second_size = list_size;
    now.number = random;
    now.reply = reply;
    now.reply_size = reply_size;
    measure(&command, call_command);
    return now.outcome;
}

struct oberkosz_outcome __wrap_oberkosz_link_event(struct oberkosz_state state, size_t initiator)
{
    now.state = state;
    now.initiator = initiator;
    measure(&link_event, call_link_event);
    return now.outcome;
}

struct oberkosz_outcome __wrap_oberkosz_reach(struct oberkosz_state state, uint8_t *reply, size_t reply_size)
{
    now.state = state;
    now.reply = reply;
    now.reply_size = reply_size;
    measure(&reach, call_reach);
    return now.outcome;
}

static struct oberkosz_opening opened(struct measured *m, void (*call)(void), struct oberkosz_state state, size_t initiator, uint64_t lun)
{
    now.state = state;
    now.initiator = initiator;
    now.number = lun;
    measure(m, call);
    return now.opening;
}

struct oberkosz_opening __wrap_oberkosz_route(struct oberkosz_state state, size_t initiator, uint64_t lun)
{
    return opened(&route, call_route, state, initiator, lun);
}

struct oberkosz_opening __wrap_oberkosz_route_standing(struct oberkosz_state state, size_t initiator, uint64_t lun)
{
    return opened(&route_standing, call_route_standing, state, initiator, lun);
}
