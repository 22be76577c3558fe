/* A shelf with one host and two units: access controls go on, and a LUN is routed. */
#include "oberkosz.h"

#include <stdio.h>

int main(void)
{
    if (!oberkosz_header_fits())
        return 1; /* the library is another one than this header was made for */
    /* One TransportID (Fibre Channel), and the default LUNs of two units: 05h and 06h. */
    static const uint8_t ids[24] = { [23] = 0x01 };
    static const uint8_t luns[2 * 8] = { [1] = 0x05, [8 + 1] = 0x06 };
    struct oberkosz_outcome o = oberkosz_setup(ids, sizeof ids, luns, sizeof luns);
    if (o.values.status != OBERKOSZ_GOOD)
        return 2; /* o.values.number is 1: the setup breaks a rule */

    /* MANAGE ACL: the new key is 7; whoever has that TransportID finds unit 0 at LUN 1. */
    static const uint8_t list[28 + 4 + 28 + 20] = {
        [19] = 0x07,                           /* header: the new key, bytes 12-19 */
        [31] = 48, [33] = 0x01, [35] = 24,     /* page 00h: its length, TransportID, 24 bytes */
        [59] = 0x01,                           /* the TransportID, bytes 36-59 */
        [65] = 0x01, [73] = 0x05,              /* a LUACD: LUN 1, default LUN 5 (unit 0) */
    };
    static const uint8_t cdb[16] = { OBERKOSZ_ACCESS_CONTROL_OUT, OBERKOSZ_OUT_MANAGE_ACL,
                                     [13] = sizeof list };
    uint8_t reply[OBERKOSZ_REPORT_BYTES]; /* large enough for every command */
    o = oberkosz_command(o.state, 0, cdb, sizeof cdb, list, sizeof list, 0, reply, sizeof reply);
    printf("MANAGE ACL: status %02x, refusal %u, code %04x\n", o.values.status, o.values.number,
           OBERKOSZ_CODE(o.values));

    /* Which unit is a command to LUN 1 for? The state is the one just handed back. */
    struct oberkosz_opening open = oberkosz_route_standing(o.state, 0, 0x0001000000000000);
    if (open.values.status == OBERKOSZ_GOOD)
        printf("LUN 1 opens unit %u for initiator 0\n", open.unit);

    /* LUN 5 opened unit 0 before access controls went on; now it opens nothing: 25h/00h. */
    open = oberkosz_route_standing(o.state, 0, 0x0005000000000000);
    printf("LUN 5: status %02x, code %04x\n", open.values.status, OBERKOSZ_CODE(open.values));
    return 0;
}
