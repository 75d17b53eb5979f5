/*
 * hub.h beside BlueZ's mgmt.h: both headers in one file, in both orders (MGMT_FIRST), as C11 and C++17, and the hub spoken to in the names of the other.
 * MGMT_HEADER names another header to try, such as BlueZ's own, which wants bdaddr_t from <bluetooth/bluetooth.h>.
 */
#ifdef MGMT_HEADER
#include <bluetooth/bluetooth.h>
#else
#include <stdint.h>
#define MGMT_HEADER "mgmt_names.h"
#endif

#ifdef MGMT_FIRST
#include MGMT_HEADER
#include "hub.h"
#else
#include "hub.h"
#if defined MGMT_INDEX_NONE || defined MGMT_HDR_SIZE || defined MGMT_STATUS_SUCCESS || defined MGMT_OP_READ_VERSION || defined MGMT_EV_CMD_COMPLETE
#error "hub.h defines names of mgmt.h"
#endif
#include MGMT_HEADER
#endif
#include "hub.h" /* a second time, which must change nothing */

#include <assert.h>
#include <stdio.h>
#include <string.h>

/* The lengths that document 01 gives, in the other header's types. */
static_assert(sizeof(struct mgmt_hdr) == MGMT_HDR_SIZE, "header");
static_assert(sizeof(struct mgmt_rp_read_info) == 280, "controller information");
static_assert(sizeof(struct mgmt_cp_set_discoverable) == 3, "Set Discoverable");
static_assert(sizeof(struct mgmt_cp_set_local_name) == 260, "Set Local Name");
static_assert(sizeof(struct mgmt_cp_add_uuid) == 17, "Add UUID");
static_assert(sizeof(struct mgmt_link_key_info) == 25, "link key");
static_assert(sizeof(struct mgmt_ltk_info) == 36, "long term key");
static_assert(sizeof(struct mgmt_irk_info) == 23, "identity resolving key");
static_assert(sizeof(struct mgmt_addr_info) == 7, "address and type");
static_assert(sizeof(struct mgmt_cp_add_device) == 8, "Add Device");
static_assert(sizeof(struct mgmt_cp_add_advertising) == 11, "Add Advertising");
static_assert(sizeof(struct mgmt_cp_remove_advertising) == 1, "Remove Advertising");
static_assert(sizeof(struct mgmt_ev_advertising_added) == 1, "Advertising Added");

static uint8_t state[HUB_STATE_LEN], reply[HUB_REPLY_MIN], text[256];
static uint64_t why;

/* Sends a command of up to one octet, on a little-endian machine; asks first why it would be refused. */
static uint64_t send_mode(uint16_t opcode, uint16_t index, uint16_t length, uint8_t value)
{
    struct {
        struct mgmt_hdr header;
        struct mgmt_mode mode;
    } packet;
    static_assert(sizeof packet == 7, "no octets between");
    packet.header.opcode = opcode;
    packet.header.index = index;
    packet.header.len = length;
    packet.mode.val = value;
    why = hub_why(state, sizeof state, (const uint8_t *)&packet, MGMT_HDR_SIZE + (size_t)length, text, sizeof text);
    return hub_command(state, sizeof state, (const uint8_t *)&packet, MGMT_HDR_SIZE + (size_t)length, reply, sizeof reply);
}

/* Adds an advertising instance of three octets of data to controller 0. */
static uint64_t send_advertising(uint8_t instance)
{
    static const uint8_t data[3] = { 2, 1, 6 };
    uint8_t packet[MGMT_HDR_SIZE + sizeof(struct mgmt_cp_add_advertising) + sizeof data];
    struct mgmt_hdr header = { MGMT_OP_ADD_ADVERTISING, 0, sizeof packet - MGMT_HDR_SIZE };
    struct mgmt_cp_add_advertising params;
    memset(&params, 0, sizeof params);
    params.instance = instance;
    params.duration = 3;
    params.adv_data_len = sizeof data;
    memcpy(packet, &header, sizeof header);
    memcpy(packet + sizeof header, &params, sizeof params);
    memcpy(packet + sizeof header + sizeof params, data, sizeof data);
    return hub_command(state, sizeof state, packet, sizeof packet, reply, sizeof reply);
}

/* Adds a device to controller 0, and looks for it by the other header's address and type. */
static uint64_t add_and_look_up(void)
{
    uint8_t packet[MGMT_HDR_SIZE + sizeof(struct mgmt_cp_add_device)];
    struct mgmt_hdr header = { MGMT_OP_ADD_DEVICE, 0, sizeof packet - MGMT_HDR_SIZE };
    struct mgmt_cp_add_device params;
    memset(&params, 0x42, sizeof params);
    params.addr.type = 1;
    params.action = 2;
    memcpy(packet, &header, sizeof header);
    memcpy(packet + sizeof header, &params, sizeof params);
    if (hub_answer(hub_command(state, sizeof state, packet, sizeof packet, reply, sizeof reply)) != HUB_DONE)
        return HUB_REFUSED;
    return hub_look_up(state, sizeof state, 0, HUB_DEVICES, (const uint8_t *)&params.addr, sizeof params.addr);
}

/* Set Bondable off the serial line, its header and its value as two lumps. */
static uint64_t stream_mode(uint8_t value)
{
    struct mgmt_hdr header = { MGMT_OP_SET_BONDABLE, 0, sizeof(struct mgmt_mode) };
    if (hub_answer(hub_stream(state, sizeof state, (const uint8_t *)&header, sizeof header, reply, sizeof reply)) != HUB_INCOMPLETE)
        return HUB_REFUSED;
    return hub_stream(state, sizeof state, &value, sizeof value, reply, sizeof reply);
}

/* Whether the reply begins with an event for a command with a status; Command Complete and Command Status begin alike. */
static int tells(uint16_t event, uint16_t index, uint16_t opcode, uint8_t status)
{
    struct mgmt_hdr header;
    struct mgmt_ev_cmd_status body;
    memcpy(&header, reply, sizeof header);
    memcpy(&body, reply + sizeof header, sizeof body);
    return header.opcode == event && header.index == index && body.opcode == opcode && body.status == status;
}

/* Whether the question before the last command gave this status. */
static int told(uint8_t status)
{
    return hub_answer(why) == HUB_DONE && hub_extra(why) == status;
}

int main(void)
{
    static const uint8_t empty[] = { 0, 0, 0, 6, 1, 0 };
    static const uint8_t address[6] = { 0x11, 0x22, 0x33, 0x44, 0x55, 0x66 };
    const uint32_t supported = MGMT_SETTING_POWERED | MGMT_SETTING_BREDR | MGMT_SETTING_LE;
    int right = hub_answer(hub_load(state, sizeof state, empty, sizeof empty)) == HUB_DONE;
    right = right && hub_answer(hub_plug(state, sizeof state, 0, address, 6, 9, 15, supported, reply, sizeof reply)) == HUB_DONE;
    right = right && reply[0] == MGMT_EV_INDEX_ADDED;
    right = right && hub_answer(send_mode(MGMT_OP_READ_VERSION, MGMT_INDEX_NONE, 0, 0)) == HUB_DONE;
    right = right && tells(MGMT_EV_CMD_COMPLETE, MGMT_INDEX_NONE, MGMT_OP_READ_VERSION, MGMT_STATUS_SUCCESS);
    right = right && hub_answer(send_mode(MGMT_OP_SET_POWERED, 0, 1, 2)) == HUB_REFUSED;
    right = right && tells(MGMT_EV_CMD_STATUS, 0, MGMT_OP_SET_POWERED, MGMT_STATUS_INVALID_PARAMS) && told(MGMT_STATUS_INVALID_PARAMS);
    right = right && hub_answer(send_mode(MGMT_OP_SET_POWERED, 0, 1, 1)) == HUB_STARTED;
    right = right && hub_answer(send_mode(MGMT_OP_SET_CONNECTABLE, 0, 1, 1)) == HUB_REFUSED;
    right = right && tells(MGMT_EV_CMD_STATUS, 0, MGMT_OP_SET_CONNECTABLE, MGMT_STATUS_BUSY) && told(MGMT_STATUS_BUSY);
    right = right && hub_answer(hub_report(state, sizeof state, 0, MGMT_STATUS_SUCCESS, reply, sizeof reply)) == HUB_DONE;
    right = right && tells(MGMT_EV_CMD_COMPLETE, 0, MGMT_OP_SET_POWERED, MGMT_STATUS_SUCCESS);
    right = right && hub_answer(send_mode(MGMT_OP_SET_BREDR, 0, 1, 0)) == HUB_REFUSED;
    right = right && tells(MGMT_EV_CMD_STATUS, 0, MGMT_OP_SET_BREDR, MGMT_STATUS_REJECTED) && told(MGMT_STATUS_REJECTED);
    right = right && hub_answer(send_advertising(1)) == HUB_DONE && tells(MGMT_EV_CMD_COMPLETE, 0, MGMT_OP_ADD_ADVERTISING, MGMT_STATUS_SUCCESS);
    right = right && reply[MGMT_HDR_SIZE + sizeof(struct mgmt_ev_cmd_complete) + 1] == MGMT_EV_ADVERTISING_ADDED;
    right = right && hub_count(hub_on_air(state, sizeof state, 0, reply, sizeof reply)) == 3 + 3 && reply[0] == 1;
    right = right && hub_answer(send_mode(MGMT_OP_REMOVE_ADVERTISING, 0, sizeof(struct mgmt_cp_remove_advertising), 0)) == HUB_DONE;
    right = right && reply[MGMT_HDR_SIZE + sizeof(struct mgmt_ev_cmd_complete) + 1] == MGMT_EV_ADVERTISING_REMOVED;
    why = add_and_look_up();
    right = right && hub_answer(why) == HUB_DONE && hub_slot(why) == 0 && hub_walked(why) == 1;
    why = stream_mode(1);
    right = right && hub_answer(why) == HUB_DONE && hub_taken(why) == 1 && tells(MGMT_EV_CMD_COMPLETE, 0, MGMT_OP_SET_BONDABLE, MGMT_STATUS_SUCCESS);
    printf("beside mgmt.h: %s (%s, %s, %s)\n", right ? "right" : "wrong", mgmt_opstr(MGMT_OP_READ_VERSION), mgmt_evstr(MGMT_EV_CMD_COMPLETE),
           mgmt_errstr(MGMT_STATUS_UNKNOWN_COMMAND));
    return !right;
}
