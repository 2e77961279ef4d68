/* What the values of IBM's integers mean, as far as trace-route messages and activity reports have them: one table by set of
 * values, for any program that shows PCF messages. Include this file; it needs nothing else.
 *
 *     const struct mqn_value *value = mqn_value_of(mqn_values_of(1240), 4, NULL);
 *     if (value)
 *         printf("%s (%s)\n", value->words, value->constant);      put (MQOPER_PUT)
 *
 * Some integers are sums of options. Ask again with the row that was given, until there is no further one. */
#ifndef MQ_VALUES_H
#define MQ_VALUES_H

#include <stddef.h>
#include <stdint.h>
#include <string.h>

/* The sets of values. */
enum mqn_set {
    MQN_NO_VALUES,
    MQN_OPERATIONS,
    MQN_APPL_TYPES,
    MQN_MSG_TYPES,
    MQN_FEEDBACKS,
    MQN_REASONS,
    MQN_COMP_CODES,
    MQN_REPORTS,
    MQN_PERSISTENCES,
    MQN_PRIORITIES,
    MQN_EXPIRIES,
    MQN_ENCODINGS,
    MQN_CHAR_SETS,
    MQN_MSG_FLAGS,
    MQN_LENGTHS,
    MQN_CHANNEL_TYPES,
    MQN_DETAILS,
    MQN_LIMITS,
    MQN_ACCUMULATES,
    MQN_FORWARDS,
    MQN_DELIVERS,
    MQN_HEADER_TYPES,
    MQN_COMMANDS,
    MQN_CONTROLS,
    MQN_EMBEDDED_FLAGS
};

#define MQN_ALL 0xFFFFFFFFu

/* A value of a set: the bits that it is about, what they are, IBM's constant, and its meaning in words. */
struct mqn_value {
    enum mqn_set set;
    uint32_t bits;
    uint32_t value;
    const char *constant;
    const char *words;
};

static const struct mqn_value mqn_values[] = {
    {MQN_OPERATIONS, MQN_ALL, 0, "MQOPER_UNKNOWN", "unknown"},
    {MQN_OPERATIONS, MQN_ALL, 1, "MQOPER_BROWSE", "browse"},
    {MQN_OPERATIONS, MQN_ALL, 2, "MQOPER_DISCARD", "discard"},
    {MQN_OPERATIONS, MQN_ALL, 3, "MQOPER_GET", "get"},
    {MQN_OPERATIONS, MQN_ALL, 4, "MQOPER_PUT", "put"},
    {MQN_OPERATIONS, MQN_ALL, 5, "MQOPER_PUT_REPLY", "put reply"},
    {MQN_OPERATIONS, MQN_ALL, 6, "MQOPER_PUT_REPORT", "put report"},
    {MQN_OPERATIONS, MQN_ALL, 7, "MQOPER_RECEIVE", "receive"},
    {MQN_OPERATIONS, MQN_ALL, 8, "MQOPER_SEND", "send"},
    {MQN_OPERATIONS, MQN_ALL, 9, "MQOPER_TRANSFORM", "transform"},
    {MQN_OPERATIONS, MQN_ALL, 10, "MQOPER_PUBLISH", "publish"},
    {MQN_OPERATIONS, MQN_ALL, 11, "MQOPER_EXCLUDED_PUBLISH", "excluded publish"},
    {MQN_OPERATIONS, MQN_ALL, 12, "MQOPER_DISCARDED_PUBLISH", "discarded publish"},

    {MQN_APPL_TYPES, MQN_ALL, MQN_ALL, "MQAT_UNKNOWN", "unknown"},
    {MQN_APPL_TYPES, MQN_ALL, 0, "MQAT_NO_CONTEXT", "no context"},
    {MQN_APPL_TYPES, MQN_ALL, 1, "MQAT_CICS", "CICS"},
    {MQN_APPL_TYPES, MQN_ALL, 2, "MQAT_ZOS", "z/OS"},
    {MQN_APPL_TYPES, MQN_ALL, 3, "MQAT_IMS", "IMS"},
    {MQN_APPL_TYPES, MQN_ALL, 4, "MQAT_OS2", "OS/2"},
    {MQN_APPL_TYPES, MQN_ALL, 5, "MQAT_DOS", "DOS"},
    {MQN_APPL_TYPES, MQN_ALL, 6, "MQAT_UNIX", "UNIX"},
    {MQN_APPL_TYPES, MQN_ALL, 7, "MQAT_QMGR", "queue manager"},
    {MQN_APPL_TYPES, MQN_ALL, 8, "MQAT_OS400", "IBM i"},
    {MQN_APPL_TYPES, MQN_ALL, 9, "MQAT_WINDOWS", "16-bit Windows"},
    {MQN_APPL_TYPES, MQN_ALL, 10, "MQAT_CICS_VSE", "CICS/VSE"},
    {MQN_APPL_TYPES, MQN_ALL, 11, "MQAT_WINDOWS_NT", "Windows"},
    {MQN_APPL_TYPES, MQN_ALL, 12, "MQAT_VMS", "OpenVMS"},
    {MQN_APPL_TYPES, MQN_ALL, 13, "MQAT_NSK", "NonStop"},
    {MQN_APPL_TYPES, MQN_ALL, 14, "MQAT_VOS", "VOS"},
    {MQN_APPL_TYPES, MQN_ALL, 15, "MQAT_OPEN_TP1", "OpenTP1"},
    {MQN_APPL_TYPES, MQN_ALL, 18, "MQAT_VM", "VM"},
    {MQN_APPL_TYPES, MQN_ALL, 19, "MQAT_IMS_BRIDGE", "IMS bridge"},
    {MQN_APPL_TYPES, MQN_ALL, 20, "MQAT_XCF", "XCF"},
    {MQN_APPL_TYPES, MQN_ALL, 21, "MQAT_CICS_BRIDGE", "CICS bridge"},
    {MQN_APPL_TYPES, MQN_ALL, 22, "MQAT_NOTES_AGENT", "Notes agent"},
    {MQN_APPL_TYPES, MQN_ALL, 23, "MQAT_TPF", "TPF"},
    {MQN_APPL_TYPES, MQN_ALL, 25, "MQAT_USER", "user application"},
    {MQN_APPL_TYPES, MQN_ALL, 26, "MQAT_BROKER", "broker"},
    {MQN_APPL_TYPES, MQN_ALL, 28, "MQAT_JAVA", "Java"},
    {MQN_APPL_TYPES, MQN_ALL, 29, "MQAT_DQM", "distributed queue management"},
    {MQN_APPL_TYPES, MQN_ALL, 30, "MQAT_CHANNEL_INITIATOR", "channel initiator"},
    {MQN_APPL_TYPES, MQN_ALL, 31, "MQAT_WLM", "workload manager"},
    {MQN_APPL_TYPES, MQN_ALL, 32, "MQAT_BATCH", "batch"},
    {MQN_APPL_TYPES, MQN_ALL, 33, "MQAT_RRS_BATCH", "RRS batch"},
    {MQN_APPL_TYPES, MQN_ALL, 34, "MQAT_SIB", "service integration bus"},
    {MQN_APPL_TYPES, MQN_ALL, 35, "MQAT_SYSTEM_EXTENSION", "system extension"},
    {MQN_APPL_TYPES, MQN_ALL, 36, "MQAT_MCAST_PUBLISH", "multicast publish"},
    {MQN_APPL_TYPES, MQN_ALL, 37, "MQAT_AMQP", "AMQP"},

    {MQN_MSG_TYPES, MQN_ALL, 1, "MQMT_REQUEST", "request"},
    {MQN_MSG_TYPES, MQN_ALL, 2, "MQMT_REPLY", "reply"},
    {MQN_MSG_TYPES, MQN_ALL, 4, "MQMT_REPORT", "report"},
    {MQN_MSG_TYPES, MQN_ALL, 8, "MQMT_DATAGRAM", "datagram"},

    {MQN_FEEDBACKS, MQN_ALL, 0, "MQFB_NONE", "none"},
    {MQN_FEEDBACKS, MQN_ALL, 256, "MQFB_QUIT", "quit"},
    {MQN_FEEDBACKS, MQN_ALL, 258, "MQFB_EXPIRATION", "expired"},
    {MQN_FEEDBACKS, MQN_ALL, 259, "MQFB_COA", "confirmed on arrival"},
    {MQN_FEEDBACKS, MQN_ALL, 260, "MQFB_COD", "confirmed on delivery"},
    {MQN_FEEDBACKS, MQN_ALL, 265, "MQFB_APPL_CANNOT_BE_STARTED", "application cannot be started"},
    {MQN_FEEDBACKS, MQN_ALL, 266, "MQFB_TM_ERROR", "trigger message error"},
    {MQN_FEEDBACKS, MQN_ALL, 267, "MQFB_APPL_TYPE_ERROR", "application type error"},
    {MQN_FEEDBACKS, MQN_ALL, 268, "MQFB_STOPPED_BY_MSG_EXIT", "stopped by a message exit"},
    {MQN_FEEDBACKS, MQN_ALL, 269, "MQFB_ACTIVITY", "activity"},
    {MQN_FEEDBACKS, MQN_ALL, 271, "MQFB_XMIT_Q_MSG_ERROR", "message on the transmission queue not sound"},
    {MQN_FEEDBACKS, MQN_ALL, 275, "MQFB_PAN", "positive action notification"},
    {MQN_FEEDBACKS, MQN_ALL, 276, "MQFB_NAN", "negative action notification"},
    {MQN_FEEDBACKS, MQN_ALL, 277, "MQFB_STOPPED_BY_CHAD_EXIT", "stopped by a channel auto-definition exit"},
    {MQN_FEEDBACKS, MQN_ALL, 279, "MQFB_STOPPED_BY_PUBSUB_EXIT", "stopped by a publish exit"},
    {MQN_FEEDBACKS, MQN_ALL, 280, "MQFB_NOT_A_REPOSITORY_MSG", "not a repository message"},
    {MQN_FEEDBACKS, MQN_ALL, 281, "MQFB_BIND_OPEN_CLUSRCVR_DEL", "cluster receiver channel deleted"},
    {MQN_FEEDBACKS, MQN_ALL, 282, "MQFB_MAX_ACTIVITIES", "too many activities"},
    {MQN_FEEDBACKS, MQN_ALL, 283, "MQFB_NOT_FORWARDED", "not forwarded"},
    {MQN_FEEDBACKS, MQN_ALL, 284, "MQFB_NOT_DELIVERED", "not delivered"},
    {MQN_FEEDBACKS, MQN_ALL, 285, "MQFB_UNSUPPORTED_FORWARDING", "unsupported forwarding option"},
    {MQN_FEEDBACKS, MQN_ALL, 286, "MQFB_UNSUPPORTED_DELIVERY", "unsupported delivery option"},
    {MQN_FEEDBACKS, MQN_ALL, 501, "MQFB_PUBLICATIONS_ON_REQUEST", "publications on request only"},
    {MQN_FEEDBACKS, MQN_ALL, 502, "MQFB_SUBSCRIBER_IS_PUBLISHER", "subscriber is the publisher"},
    {MQN_FEEDBACKS, MQN_ALL, 503, "MQFB_MSG_SCOPE_MISMATCH", "scope does not match"},
    {MQN_FEEDBACKS, MQN_ALL, 504, "MQFB_SELECTOR_MISMATCH", "selector does not match"},

    {MQN_REASONS, MQN_ALL, 0, "MQRC_NONE", "none"},
    {MQN_REASONS, MQN_ALL, 2030, "MQRC_MSG_TOO_BIG_FOR_Q", "message too big for the queue"},
    {MQN_REASONS, MQN_ALL, 2031, "MQRC_MSG_TOO_BIG_FOR_Q_MGR", "message too big for the queue manager"},
    {MQN_REASONS, MQN_ALL, 2035, "MQRC_NOT_AUTHORIZED", "not authorized"},
    {MQN_REASONS, MQN_ALL, 2048, "MQRC_PERSISTENT_NOT_ALLOWED", "persistent messages not allowed"},
    {MQN_REASONS, MQN_ALL, 2051, "MQRC_PUT_INHIBITED", "put inhibited"},
    {MQN_REASONS, MQN_ALL, 2052, "MQRC_Q_DELETED", "queue deleted"},
    {MQN_REASONS, MQN_ALL, 2053, "MQRC_Q_FULL", "queue full"},
    {MQN_REASONS, MQN_ALL, 2056, "MQRC_Q_SPACE_NOT_AVAILABLE", "no disk space for the queue"},
    {MQN_REASONS, MQN_ALL, 2082, "MQRC_UNKNOWN_ALIAS_BASE_Q", "unknown base queue of an alias"},
    {MQN_REASONS, MQN_ALL, 2085, "MQRC_UNKNOWN_OBJECT_NAME", "unknown queue"},
    {MQN_REASONS, MQN_ALL, 2087, "MQRC_UNKNOWN_REMOTE_Q_MGR", "unknown remote queue manager"},
    {MQN_REASONS, MQN_ALL, 2412, "MQRC_COMMAND_MQSC", "MQSC command"},
    {MQN_REASONS, MQN_ALL, 2413, "MQRC_COMMAND_PCF", "PCF command"},

    {MQN_COMP_CODES, MQN_ALL, 0, "MQCC_OK", "ok"},
    {MQN_COMP_CODES, MQN_ALL, 1, "MQCC_WARNING", "warning"},
    {MQN_COMP_CODES, MQN_ALL, 2, "MQCC_FAILED", "failed"},

    {MQN_REPORTS, MQN_ALL, 0, "MQRO_NONE", "none"},
    {MQN_REPORTS, 0x07000000, 0x01000000, "MQRO_EXCEPTION", "exception"},
    {MQN_REPORTS, 0x07000000, 0x03000000, "MQRO_EXCEPTION_WITH_DATA", "exception with data"},
    {MQN_REPORTS, 0x07000000, 0x07000000, "MQRO_EXCEPTION_WITH_FULL_DATA", "exception with full data"},
    {MQN_REPORTS, 0x00E00000, 0x00200000, "MQRO_EXPIRATION", "expiration"},
    {MQN_REPORTS, 0x00E00000, 0x00600000, "MQRO_EXPIRATION_WITH_DATA", "expiration with data"},
    {MQN_REPORTS, 0x00E00000, 0x00E00000, "MQRO_EXPIRATION_WITH_FULL_DATA", "expiration with full data"},
    {MQN_REPORTS, 0x00000700, 0x00000100, "MQRO_COA", "confirm on arrival"},
    {MQN_REPORTS, 0x00000700, 0x00000300, "MQRO_COA_WITH_DATA", "confirm on arrival with data"},
    {MQN_REPORTS, 0x00000700, 0x00000700, "MQRO_COA_WITH_FULL_DATA", "confirm on arrival with full data"},
    {MQN_REPORTS, 0x00003800, 0x00000800, "MQRO_COD", "confirm on delivery"},
    {MQN_REPORTS, 0x00003800, 0x00001800, "MQRO_COD_WITH_DATA", "confirm on delivery with data"},
    {MQN_REPORTS, 0x00003800, 0x00003800, "MQRO_COD_WITH_FULL_DATA", "confirm on delivery with full data"},
    {MQN_REPORTS, 0x00000001, 0x00000001, "MQRO_PAN", "positive action"},
    {MQN_REPORTS, 0x00000002, 0x00000002, "MQRO_NAN", "negative action"},
    {MQN_REPORTS, 0x00000004, 0x00000004, "MQRO_ACTIVITY", "activity"},
    {MQN_REPORTS, 0x00000040, 0x00000040, "MQRO_PASS_CORREL_ID", "pass the correlation identifier"},
    {MQN_REPORTS, 0x00000080, 0x00000080, "MQRO_PASS_MSG_ID", "pass the message identifier"},
    {MQN_REPORTS, 0x00004000, 0x00004000, "MQRO_PASS_DISCARD_AND_EXPIRY", "pass discard and expiry"},
    {MQN_REPORTS, 0x08000000, 0x08000000, "MQRO_DISCARD_MSG", "discard"},

    {MQN_PERSISTENCES, MQN_ALL, 0, "MQPER_NOT_PERSISTENT", "not persistent"},
    {MQN_PERSISTENCES, MQN_ALL, 1, "MQPER_PERSISTENT", "persistent"},
    {MQN_PERSISTENCES, MQN_ALL, 2, "MQPER_PERSISTENCE_AS_Q_DEF", "as the queue is defined"},

    {MQN_PRIORITIES, MQN_ALL, MQN_ALL, "MQPRI_PRIORITY_AS_Q_DEF", "as the queue is defined"},

    {MQN_EXPIRIES, MQN_ALL, MQN_ALL, "MQEI_UNLIMITED", "unlimited"},

    {MQN_ENCODINGS, 0x0000000F, 0x00000001, "MQENC_INTEGER_NORMAL", "integers normal"},
    {MQN_ENCODINGS, 0x0000000F, 0x00000002, "MQENC_INTEGER_REVERSED", "integers reversed"},
    {MQN_ENCODINGS, 0x000000F0, 0x00000010, "MQENC_DECIMAL_NORMAL", "decimals normal"},
    {MQN_ENCODINGS, 0x000000F0, 0x00000020, "MQENC_DECIMAL_REVERSED", "decimals reversed"},
    {MQN_ENCODINGS, 0x00000F00, 0x00000100, "MQENC_FLOAT_IEEE_NORMAL", "floats IEEE normal"},
    {MQN_ENCODINGS, 0x00000F00, 0x00000200, "MQENC_FLOAT_IEEE_REVERSED", "floats IEEE reversed"},
    {MQN_ENCODINGS, 0x00000F00, 0x00000300, "MQENC_FLOAT_S390", "floats S/390"},
    {MQN_ENCODINGS, 0x00000F00, 0x00000400, "MQENC_FLOAT_TNS", "floats TNS"},

    {MQN_CHAR_SETS, MQN_ALL, 0, "MQCCSI_DEFAULT", "default"},
    {MQN_CHAR_SETS, MQN_ALL, MQN_ALL, "MQCCSI_EMBEDDED", "embedded"},
    {MQN_CHAR_SETS, MQN_ALL, MQN_ALL - 1, "MQCCSI_INHERIT", "inherited"},

    {MQN_MSG_FLAGS, MQN_ALL, 0, "MQMF_NONE", "none"},
    {MQN_MSG_FLAGS, 0x00000001, 0x00000001, "MQMF_SEGMENTATION_ALLOWED", "segmentation allowed"},
    {MQN_MSG_FLAGS, 0x00000002, 0x00000002, "MQMF_SEGMENT", "segment"},
    {MQN_MSG_FLAGS, 0x00000004, 0x00000004, "MQMF_LAST_SEGMENT", "last segment"},
    {MQN_MSG_FLAGS, 0x00000008, 0x00000008, "MQMF_MSG_IN_GROUP", "in a group"},
    {MQN_MSG_FLAGS, 0x00000010, 0x00000010, "MQMF_LAST_MSG_IN_GROUP", "last in its group"},

    {MQN_LENGTHS, MQN_ALL, MQN_ALL, "MQOL_UNDEFINED", "undefined"},

    {MQN_CHANNEL_TYPES, MQN_ALL, 1, "MQCHT_SENDER", "sender"},
    {MQN_CHANNEL_TYPES, MQN_ALL, 2, "MQCHT_SERVER", "server"},
    {MQN_CHANNEL_TYPES, MQN_ALL, 3, "MQCHT_RECEIVER", "receiver"},
    {MQN_CHANNEL_TYPES, MQN_ALL, 4, "MQCHT_REQUESTER", "requester"},
    {MQN_CHANNEL_TYPES, MQN_ALL, 6, "MQCHT_CLNTCONN", "client connection"},
    {MQN_CHANNEL_TYPES, MQN_ALL, 7, "MQCHT_SVRCONN", "server connection"},
    {MQN_CHANNEL_TYPES, MQN_ALL, 8, "MQCHT_CLUSRCVR", "cluster receiver"},
    {MQN_CHANNEL_TYPES, MQN_ALL, 9, "MQCHT_CLUSSDR", "cluster sender"},

    {MQN_DETAILS, MQN_ALL, 2, "MQROUTE_DETAIL_LOW", "low"},
    {MQN_DETAILS, MQN_ALL, 8, "MQROUTE_DETAIL_MEDIUM", "medium"},
    {MQN_DETAILS, MQN_ALL, 32, "MQROUTE_DETAIL_HIGH", "high"},

    {MQN_LIMITS, MQN_ALL, 0, "MQROUTE_UNLIMITED_ACTIVITIES", "unlimited"},

    {MQN_ACCUMULATES, MQN_ALL, 0x10003, "MQROUTE_ACCUMULATE_NONE", "none"},
    {MQN_ACCUMULATES, MQN_ALL, 0x10004, "MQROUTE_ACCUMULATE_IN_MSG", "in the message"},
    {MQN_ACCUMULATES, MQN_ALL, 0x10005, "MQROUTE_ACCUMULATE_AND_REPLY", "in the message, and reply"},

    {MQN_FORWARDS, 0x00000100, 0x00000100, "MQROUTE_FORWARD_ALL", "all"},
    {MQN_FORWARDS, 0x00000200, 0x00000200, "MQROUTE_FORWARD_IF_SUPPORTED", "if supported"},

    {MQN_DELIVERS, 0x00001000, 0x00001000, "MQROUTE_DELIVER_YES", "yes"},
    {MQN_DELIVERS, 0x00002000, 0x00002000, "MQROUTE_DELIVER_NO", "no"},

    {MQN_HEADER_TYPES, MQN_ALL, 1, "MQCFT_COMMAND", "command"},
    {MQN_HEADER_TYPES, MQN_ALL, 2, "MQCFT_RESPONSE", "response"},
    {MQN_HEADER_TYPES, MQN_ALL, 7, "MQCFT_EVENT", "event"},
    {MQN_HEADER_TYPES, MQN_ALL, 8, "MQCFT_USER", "user"},
    {MQN_HEADER_TYPES, MQN_ALL, 10, "MQCFT_TRACE_ROUTE", "trace-route"},
    {MQN_HEADER_TYPES, MQN_ALL, 12, "MQCFT_REPORT", "report"},
    {MQN_HEADER_TYPES, MQN_ALL, 16, "MQCFT_COMMAND_XR", "extended command"},
    {MQN_HEADER_TYPES, MQN_ALL, 17, "MQCFT_XR_MSG", "extended response, first"},
    {MQN_HEADER_TYPES, MQN_ALL, 18, "MQCFT_XR_ITEM", "extended response, item"},
    {MQN_HEADER_TYPES, MQN_ALL, 19, "MQCFT_XR_SUMMARY", "extended response, summary"},
    {MQN_HEADER_TYPES, MQN_ALL, 21, "MQCFT_STATISTICS", "statistics"},
    {MQN_HEADER_TYPES, MQN_ALL, 22, "MQCFT_ACCOUNTING", "accounting"},
    {MQN_HEADER_TYPES, MQN_ALL, 26, "MQCFT_APP_ACTIVITY", "application activity"},
    {MQN_HEADER_TYPES, MQN_ALL, 27, "MQCFT_STATUS", "status"},

    {MQN_COMMANDS, MQN_ALL, 43, "MQCMD_CONFIG_EVENT", "configuration event"},
    {MQN_COMMANDS, MQN_ALL, 44, "MQCMD_Q_MGR_EVENT", "queue manager event"},
    {MQN_COMMANDS, MQN_ALL, 45, "MQCMD_PERFM_EVENT", "performance event"},
    {MQN_COMMANDS, MQN_ALL, 46, "MQCMD_CHANNEL_EVENT", "channel event"},
    {MQN_COMMANDS, MQN_ALL, 69, "MQCMD_ACTIVITY_MSG", "activity report"},
    {MQN_COMMANDS, MQN_ALL, 75, "MQCMD_TRACE_ROUTE", "trace-route"},
    {MQN_COMMANDS, MQN_ALL, 90, "MQCMD_SET_AUTH_REC", "set authority record"},
    {MQN_COMMANDS, MQN_ALL, 91, "MQCMD_LOGGER_EVENT", "logger event"},
    {MQN_COMMANDS, MQN_ALL, 99, "MQCMD_COMMAND_EVENT", "command event"},

    {MQN_CONTROLS, MQN_ALL, 0, "MQCFC_NOT_LAST", "not the last message"},
    {MQN_CONTROLS, MQN_ALL, 1, "MQCFC_LAST", "last message"},

    {MQN_EMBEDDED_FLAGS, MQN_ALL, 0, "MQEPH_NONE", "none"},
    {MQN_EMBEDDED_FLAGS, 0x00000001, 0x00000001, "MQEPH_CCSID_EMBEDDED", "character set in each structure"}
};

/* The set that the values of an integer parameter belong to. */
static inline enum mqn_set mqn_values_of(uint64_t identifier)
{
    static const struct {
        uint32_t identifier;
        enum mqn_set set;
    } sets[] = {
        {1, MQN_APPL_TYPES},        {2, MQN_CHAR_SETS},       {1010, MQN_APPL_TYPES},   {1021, MQN_COMMANDS},
        {1234, MQN_DETAILS},        {1236, MQN_LIMITS},       {1238, MQN_ACCUMULATES},  {1239, MQN_DELIVERS},
        {1240, MQN_OPERATIONS},     {1242, MQN_COMP_CODES},   {1243, MQN_ENCODINGS},    {1244, MQN_EXPIRIES},
        {1245, MQN_FEEDBACKS},      {1247, MQN_MSG_FLAGS},    {1249, MQN_MSG_TYPES},    {1251, MQN_LENGTHS},
        {1252, MQN_PERSISTENCES},   {1253, MQN_PRIORITIES},   {1254, MQN_REASONS},      {1255, MQN_REPORTS},
        {1259, MQN_FORWARDS},       {1511, MQN_CHANNEL_TYPES}
    };
    for (size_t i = 0; i < sizeof sets / sizeof sets[0]; i++) {
        if (sets[i].identifier == identifier) {
            return sets[i].set;
        }
    }
    return MQN_NO_VALUES;
}

/* The table's next row that a value of a set fits, behind the row that was given last (at first a null pointer); a null
 * pointer if there is none. A feedback may also be a reason code. */
static inline const struct mqn_value *mqn_value_of(enum mqn_set set, uint32_t value, const struct mqn_value *last)
{
    const struct mqn_value *end = mqn_values + sizeof mqn_values / sizeof mqn_values[0];
    for (const struct mqn_value *row = last ? last + 1 : mqn_values; row < end; row++) {
        int asked = row->set == set || (set == MQN_FEEDBACKS && row->set == MQN_REASONS && row->value != 0);
        if (asked && (value & row->bits) == row->value) {
            return row;
        }
    }
    return NULL;
}

/* A format name of a message descriptor: its text without trailing blanks or zero bytes, IBM's constant, and its meaning in
 * words. */
struct mqn_format {
    const char *text;
    const char *constant;
    const char *words;
};

static const struct mqn_format mqn_formats[] = {
    {"MQADMIN", "MQFMT_ADMIN", "PCF command or response"},
    {"MQDEAD", "MQFMT_DEAD_LETTER_HEADER", "dead-letter header"},
    {"MQEVENT", "MQFMT_EVENT", "event"},
    {"MQHDIST", "MQFMT_DIST_HEADER", "distribution-list header"},
    {"MQHEPCF", "MQFMT_EMBEDDED_PCF", "embedded PCF header"},
    {"MQHMDE", "MQFMT_MD_EXTENSION", "descriptor extension"},
    {"MQHREF", "MQFMT_REF_MSG_HEADER", "reference message header"},
    {"MQHRF", "MQFMT_RF_HEADER", "rules and formatting header"},
    {"MQHRF2", "MQFMT_RF_HEADER_2", "rules and formatting header 2"},
    {"MQPCF", "MQFMT_PCF", "user's PCF"},
    {"MQSTR", "MQFMT_STRING", "string"},
    {"MQTRIG", "MQFMT_TRIGGER", "trigger message"},
    {"MQXMIT", "MQFMT_XMIT_Q_HEADER", "transmission queue header"}
};

/* The table's row of a format name, trailing blanks and zero bytes removed, or a null pointer. */
static inline const struct mqn_format *mqn_format_of(const void *text, size_t length)
{
    for (size_t i = 0; i < sizeof mqn_formats / sizeof mqn_formats[0]; i++) {
        if (strlen(mqn_formats[i].text) == length && memcmp(mqn_formats[i].text, text, length) == 0) {
            return &mqn_formats[i];
        }
    }
    return NULL;
}

#endif
