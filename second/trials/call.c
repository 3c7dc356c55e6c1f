/* Calls that are data, made on a board and on a store beside it. */
#include "call.h"

#include <string.h>

void set_up(struct board *board, struct store *store)
{
    board_start(board, 0, 0);
    *store = (struct store){.length = STORE_BYTES};
}

/* "0 to 600, which the console fills with 0x5A first" */
static uint8_t *lend(const struct call *call, struct answer *answer)
{
    memset(answer->bytes, UNWRITTEN, call->room);
    return answer->bytes;
}

static enum number offer(struct board *board, const struct call *call, struct answer *answer)
{
    size_t taken;
    const enum number number = board_offer(board, call->bytes, call->length, &taken);
    answer->more = (uint32_t)taken;
    return number;
}

static enum number fill_cabinet(const struct board *board, const struct call *call, struct answer *answer)
{
    memset(answer->words, UNWRITTEN, call->room * sizeof answer->words[0]);
    return board_cabinet(board, answer->words, call->room);
}

/* "the console's one store of classes becomes these bytes, followed by zeros up to LENGTH" */
static enum number replace(struct store *store, const struct call *call)
{
    *store = (struct store){.length = call->room};
    memcpy(store->bytes, call->bytes, call->length);
    return DONE;
}

static enum number read_register(const struct board *board, const struct call *call, struct answer *answer)
{
    answer->exists = in_one_range(call->number, 1);
    answer->more = answer->exists ? board_register(board, call->number) : 0;
    return DONE;
}

static enum number obey(struct board *board, struct store *store, const struct call *call, struct answer *answer)
{
    switch (call->kind) {
    case CALL_START: return board_start(board, call->cells, call->pulses_per_km);
    case CALL_TICK: return board_tick(board, &call->readings, call->cell, call->length);
    case CALL_FRAME: return board_frame(board, call->bytes, call->length, lend(call, answer), call->room, &answer->which);
    case CALL_OFFER: return offer(board, call, answer);
    case CALL_FETCH: return board_fetch(board, lend(call, answer), call->room, &answer->which);
    case CALL_HANDOVER: return board_handover(board, call->number, lend(call, answer), call->room);
    case CALL_SAVE: return board_save(board, lend(call, answer), call->room);
    case CALL_LOAD: return board_load(board, call->bytes, call->length);
    case CALL_CABINET: return fill_cabinet(board, call, answer);
    case CALL_STORE: return replace(store, call);
    case CALL_KEEP: return board_keep(board, store->bytes, store->length, &answer->more);
    case CALL_RECALL: return board_recall(board, store->bytes, store->length, call->number);
    case CALL_TIDY: return store_tidy(store->bytes, store->length);
    case CALL_CRC: answer->more = crc_of(call->bytes, call->length); return DONE;
    case CALL_REGISTER: return read_register(board, call, answer);
    default: return DONE;
    }
}

void make_call(struct board *board, struct store *store, const struct call *call, struct answer *answer)
{
    answer->which = 0;
    answer->more = 0;
    answer->exists = false;
    answer->number = obey(board, store, call, answer);
    answer->charge_switch = board->charge_switch;
    answer->discharge_switch = board->discharge_switch;
    answer->need = board->need;
    answer->real = board->real;
}
