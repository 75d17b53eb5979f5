/*
 * Names as BlueZ's mgmt.h has them, for the commands, events, statuses and settings that the hub knows, written from document 001 (mgmt-api): a host
 * includes BlueZ's own header beside hub.h. Like that header it has no include guard.
 */
#define MGMT_INDEX_NONE 0xFFFF
#define MGMT_HDR_SIZE 6
#define MGMT_MAX_NAME_LENGTH 249
#define MGMT_MAX_SHORT_NAME_LENGTH 11

#define MGMT_STATUS_SUCCESS 0x00
#define MGMT_STATUS_UNKNOWN_COMMAND 0x01
#define MGMT_STATUS_FAILED 0x03
#define MGMT_STATUS_NOT_PAIRED 0x06
#define MGMT_STATUS_NO_RESOURCES 0x07
#define MGMT_STATUS_BUSY 0x0a
#define MGMT_STATUS_REJECTED 0x0b
#define MGMT_STATUS_NOT_SUPPORTED 0x0c
#define MGMT_STATUS_INVALID_PARAMS 0x0d
#define MGMT_STATUS_NOT_POWERED 0x0f
#define MGMT_STATUS_INVALID_INDEX 0x11
#define MGMT_STATUS_PERMISSION_DENIED 0x14

#define MGMT_SETTING_POWERED 0x00000001
#define MGMT_SETTING_CONNECTABLE 0x00000002
#define MGMT_SETTING_DISCOVERABLE 0x00000008
#define MGMT_SETTING_BONDABLE 0x00000010
#define MGMT_SETTING_BREDR 0x00000080
#define MGMT_SETTING_LE 0x00000200
#define MGMT_SETTING_STATIC_ADDRESS 0x00008000

#define MGMT_OP_READ_VERSION 0x0001
#define MGMT_OP_READ_COMMANDS 0x0002
#define MGMT_OP_READ_INDEX_LIST 0x0003
#define MGMT_OP_READ_INFO 0x0004
#define MGMT_OP_SET_POWERED 0x0005
#define MGMT_OP_SET_DISCOVERABLE 0x0006
#define MGMT_OP_SET_CONNECTABLE 0x0007
#define MGMT_OP_SET_BONDABLE 0x0009
#define MGMT_OP_SET_LE 0x000D
#define MGMT_OP_SET_LOCAL_NAME 0x000F
#define MGMT_OP_ADD_UUID 0x0010
#define MGMT_OP_REMOVE_UUID 0x0011
#define MGMT_OP_LOAD_LINK_KEYS 0x0012
#define MGMT_OP_LOAD_LONG_TERM_KEYS 0x0013
#define MGMT_OP_UNPAIR_DEVICE 0x001B
#define MGMT_OP_BLOCK_DEVICE 0x0026
#define MGMT_OP_UNBLOCK_DEVICE 0x0027
#define MGMT_OP_SET_BREDR 0x002A
#define MGMT_OP_SET_STATIC_ADDRESS 0x002B
#define MGMT_OP_LOAD_IRKS 0x0030
#define MGMT_OP_ADD_DEVICE 0x0033
#define MGMT_OP_REMOVE_DEVICE 0x0034
#define MGMT_OP_ADD_ADVERTISING 0x003E
#define MGMT_OP_REMOVE_ADVERTISING 0x003F

#define MGMT_EV_CMD_COMPLETE 0x0001
#define MGMT_EV_CMD_STATUS 0x0002
#define MGMT_EV_INDEX_ADDED 0x0004
#define MGMT_EV_INDEX_REMOVED 0x0005
#define MGMT_EV_NEW_SETTINGS 0x0006
#define MGMT_EV_CLASS_OF_DEV_CHANGED 0x0007
#define MGMT_EV_LOCAL_NAME_CHANGED 0x0008
#define MGMT_EV_DEVICE_BLOCKED 0x0014
#define MGMT_EV_DEVICE_UNBLOCKED 0x0015
#define MGMT_EV_DEVICE_UNPAIRED 0x0016
#define MGMT_EV_DEVICE_ADDED 0x001a
#define MGMT_EV_DEVICE_REMOVED 0x001b
#define MGMT_EV_ADVERTISING_ADDED 0x0023
#define MGMT_EV_ADVERTISING_REMOVED 0x0024

#pragma pack(push, 1)

typedef struct {
    uint8_t b[6];
} bdaddr_t;

struct mgmt_hdr {
    uint16_t opcode, index, len;
};

struct mgmt_addr_info {
    bdaddr_t bdaddr;
    uint8_t type;
};

struct mgmt_mode {
    uint8_t val;
};

struct mgmt_rp_read_version {
    uint8_t version;
    uint16_t revision;
};

struct mgmt_rp_read_info {
    bdaddr_t bdaddr;
    uint8_t version;
    uint16_t manufacturer;
    uint32_t supported_settings, current_settings;
    uint8_t dev_class[3], name[MGMT_MAX_NAME_LENGTH], short_name[MGMT_MAX_SHORT_NAME_LENGTH];
};

struct mgmt_cp_set_discoverable {
    uint8_t val;
    uint16_t timeout;
};

struct mgmt_cp_set_local_name {
    uint8_t name[MGMT_MAX_NAME_LENGTH], short_name[MGMT_MAX_SHORT_NAME_LENGTH];
};

struct mgmt_cp_add_uuid {
    uint8_t uuid[16], svc_hint;
};

struct mgmt_link_key_info {
    struct mgmt_addr_info addr;
    uint8_t type, val[16], pin_len;
};

struct mgmt_ltk_info {
    struct mgmt_addr_info addr;
    uint8_t type, central, enc_size;
    uint16_t ediv;
    uint64_t rand;
    uint8_t val[16];
};

struct mgmt_irk_info {
    struct mgmt_addr_info addr;
    uint8_t val[16];
};

struct mgmt_cp_add_device {
    struct mgmt_addr_info addr;
    uint8_t action;
};

struct mgmt_cp_add_advertising {
    uint8_t instance;
    uint32_t flags;
    uint16_t duration, timeout;
    uint8_t adv_data_len, scan_rsp_len, data[];
};

struct mgmt_cp_remove_advertising {
    uint8_t instance;
};

struct mgmt_ev_advertising_added {
    uint8_t instance;
};

struct mgmt_ev_cmd_complete {
    uint16_t opcode;
    uint8_t status;
};

struct mgmt_ev_cmd_status {
    uint16_t opcode;
    uint8_t status;
};

#pragma pack(pop)

static const char *const mgmt_op[] = { "<0x0000>", "Read Version" };
static const char *const mgmt_ev[] = { "<0x0000>", "Command Complete" };
static const char *const mgmt_status[] = { "Success", "Unknown Command" };

static inline const char *mgmt_opstr(uint16_t op)
{
    return op < 2 ? mgmt_op[op] : "<unknown opcode>";
}

static inline const char *mgmt_evstr(uint16_t ev)
{
    return ev < 2 ? mgmt_ev[ev] : "<unknown event>";
}

static inline const char *mgmt_errstr(uint8_t status)
{
    return status < 2 ? mgmt_status[status] : "<unknown status>";
}
