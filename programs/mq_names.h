/* IBM's names of the parameters and groups that trace-route messages, activity reports and command events have: one table by
 * identifier, for any program that shows PCF messages. Include this file; it needs nothing else.
 *
 *     const struct mqn_name *name = mqn_name_of(2015, MQN_STRING);
 *     if (name)
 *         printf("%s (%s)\n", name->name, name->constant);      QMgrName (MQCA_Q_MGR_NAME)
 *
 * What the values of integers mean is in mq_values.h. */
#ifndef MQ_NAMES_H
#define MQ_NAMES_H

#include <stddef.h>
#include <stdint.h>

/* What a parameter is. Lists and filters are of the kind of what they hold. */
enum mqn_kind {
    MQN_NONE,
    MQN_INTEGER,
    MQN_STRING,
    MQN_BYTES,
    MQN_GROUP
};

/* A parameter: its identifier, its kind, IBM's constant for it, and the name that people and IBM's manuals use. */
struct mqn_name {
    uint32_t identifier;
    enum mqn_kind kind;
    const char *constant;
    const char *name;
};

/* In the order of the identifiers. */
static const struct mqn_name mqn_names[] = {
    {1, MQN_INTEGER, "MQIA_APPL_TYPE", "ApplType"},
    {2, MQN_INTEGER, "MQIA_CODED_CHAR_SET_ID", "CodedCharSetId"},
    {1010, MQN_INTEGER, "MQIACF_EVENT_APPL_TYPE", "EventApplType"},
    {1011, MQN_INTEGER, "MQIACF_EVENT_ORIGIN", "EventOrigin"},
    {1016, MQN_INTEGER, "MQIACF_OBJECT_TYPE", "ObjectType"},
    {1020, MQN_INTEGER, "MQIACF_REASON_QUALIFIER", "ReasonQualifier"},
    {1021, MQN_INTEGER, "MQIACF_COMMAND", "Command"},
    {1116, MQN_INTEGER, "MQIACF_AUTH_ADD_AUTHS", "AuthAddAuths"},
    {1117, MQN_INTEGER, "MQIACF_AUTH_REMOVE_AUTHS", "AuthRemoveAuths"},
    {1234, MQN_INTEGER, "MQIACF_ROUTE_DETAIL", "Detail"},
    {1235, MQN_INTEGER, "MQIACF_RECORDED_ACTIVITIES", "RecordedActivities"},
    {1236, MQN_INTEGER, "MQIACF_MAX_ACTIVITIES", "MaxActivities"},
    {1237, MQN_INTEGER, "MQIACF_DISCONTINUITY_COUNT", "DiscontinuityCount"},
    {1238, MQN_INTEGER, "MQIACF_ROUTE_ACCUMULATION", "Accumulate"},
    {1239, MQN_INTEGER, "MQIACF_ROUTE_DELIVERY", "Deliver"},
    {1240, MQN_INTEGER, "MQIACF_OPERATION_TYPE", "OperationType"},
    {1241, MQN_INTEGER, "MQIACF_BACKOUT_COUNT", "BackoutCount"},
    {1242, MQN_INTEGER, "MQIACF_COMP_CODE", "CompCode"},
    {1243, MQN_INTEGER, "MQIACF_ENCODING", "Encoding"},
    {1244, MQN_INTEGER, "MQIACF_EXPIRY", "Expiry"},
    {1245, MQN_INTEGER, "MQIACF_FEEDBACK", "Feedback"},
    {1247, MQN_INTEGER, "MQIACF_MSG_FLAGS", "MsgFlags"},
    {1248, MQN_INTEGER, "MQIACF_MSG_LENGTH", "MsgLength"},
    {1249, MQN_INTEGER, "MQIACF_MSG_TYPE", "MsgType"},
    {1250, MQN_INTEGER, "MQIACF_OFFSET", "Offset"},
    {1251, MQN_INTEGER, "MQIACF_ORIGINAL_LENGTH", "OriginalLength"},
    {1252, MQN_INTEGER, "MQIACF_PERSISTENCE", "Persistence"},
    {1253, MQN_INTEGER, "MQIACF_PRIORITY", "Priority"},
    {1254, MQN_INTEGER, "MQIACF_REASON_CODE", "ReasonCode"},
    {1255, MQN_INTEGER, "MQIACF_REPORT", "Report"},
    {1256, MQN_INTEGER, "MQIACF_VERSION", "Version"},
    {1257, MQN_INTEGER, "MQIACF_UNRECORDED_ACTIVITIES", "UnrecordedActivities"},
    {1259, MQN_INTEGER, "MQIACF_ROUTE_FORWARDING", "Forward"},
    {1275, MQN_INTEGER, "MQIACF_SUBSCRIPTION_SCOPE", "SubscriptionScope"},
    {1307, MQN_INTEGER, "MQIACF_SUB_LEVEL", "SubLevel"},
    {1511, MQN_INTEGER, "MQIACH_CHANNEL_TYPE", "ChannelType"},
    {1514, MQN_INTEGER, "MQIACH_MSG_SEQUENCE_NUMBER", "MsgSeqNumber"},
    {2002, MQN_STRING, "MQCA_BASE_OBJECT_NAME", "BaseObjectName"},
    {2015, MQN_STRING, "MQCA_Q_MGR_NAME", "QMgrName"},
    {2016, MQN_STRING, "MQCA_Q_NAME", "QName"},
    {2017, MQN_STRING, "MQCA_REMOTE_Q_MGR_NAME", "RemoteQMgrName"},
    {2018, MQN_STRING, "MQCA_REMOTE_Q_NAME", "RemoteQName"},
    {2024, MQN_STRING, "MQCA_XMIT_Q_NAME", "XmitQName"},
    {2040, MQN_STRING, "MQCA_QSG_NAME", "QSGName"},
    {2094, MQN_STRING, "MQCA_TOPIC_STRING", "TopicString"},
    {3023, MQN_STRING, "MQCACF_OBJECT_Q_MGR_NAME", "ObjectQMgrName"},
    {3024, MQN_STRING, "MQCACF_APPL_NAME", "ApplName"},
    {3025, MQN_STRING, "MQCACF_USER_IDENTIFIER", "UserIdentifier"},
    {3045, MQN_STRING, "MQCACF_EVENT_USER_ID", "EventUserId"},
    {3046, MQN_STRING, "MQCACF_OBJECT_NAME", "ObjectName"},
    {3047, MQN_STRING, "MQCACF_EVENT_Q_MGR", "EventQMgr"},
    {3049, MQN_STRING, "MQCACF_EVENT_APPL_IDENTITY", "EventApplIdentity"},
    {3050, MQN_STRING, "MQCACF_EVENT_APPL_NAME", "EventApplName"},
    {3051, MQN_STRING, "MQCACF_EVENT_APPL_ORIGIN", "EventApplOrigin"},
    {3065, MQN_STRING, "MQCACF_PRINCIPAL_ENTITY_NAMES", "PrincipalEntityNames"},
    {3066, MQN_STRING, "MQCACF_GROUP_ENTITY_NAMES", "GroupEntityNames"},
    {3067, MQN_STRING, "MQCACF_AUTH_PROFILE_NAME", "AuthProfileName"},
    {3075, MQN_STRING, "MQCACF_COMMAND_MQSC", "CommandMQSC"},
    {3132, MQN_STRING, "MQCACF_OPERATION_DATE", "OperationDate"},
    {3133, MQN_STRING, "MQCACF_OPERATION_TIME", "OperationTime"},
    {3134, MQN_STRING, "MQCACF_ACTIVITY_DESC", "ActivityDesc"},
    {3135, MQN_STRING, "MQCACF_APPL_IDENTITY_DATA", "ApplIdentityData"},
    {3136, MQN_STRING, "MQCACF_APPL_ORIGIN_DATA", "ApplOriginData"},
    {3137, MQN_STRING, "MQCACF_PUT_DATE", "PutDate"},
    {3138, MQN_STRING, "MQCACF_PUT_TIME", "PutTime"},
    {3139, MQN_STRING, "MQCACF_REPLY_TO_Q", "ReplyToQ"},
    {3140, MQN_STRING, "MQCACF_REPLY_TO_Q_MGR", "ReplyToQMgr"},
    {3141, MQN_STRING, "MQCACF_RESOLVED_Q_NAME", "ResolvedQName"},
    {3142, MQN_STRING, "MQCACF_STRUC_ID", "StrucId"},
    {3143, MQN_STRING, "MQCACF_VALUE_NAME", "ValueName"},
    {3152, MQN_STRING, "MQCACF_SUB_NAME", "SubName"},
    {3154, MQN_STRING, "MQCACF_DESTINATION", "Destination"},
    {3193, MQN_STRING, "MQCACF_OBJECT_STRING", "ObjectString"},
    {3194, MQN_STRING, "MQCACF_RESOLVED_LOCAL_Q_MGR", "ResolvedLocalQMgr"},
    {3195, MQN_STRING, "MQCACF_RESOLVED_LOCAL_Q_NAME", "ResolvedLocalQName"},
    {3197, MQN_STRING, "MQCACF_RESOLVED_Q_MGR", "ResolvedQMgr"},
    {3501, MQN_STRING, "MQCACH_CHANNEL_NAME", "ChannelName"},
    {3505, MQN_STRING, "MQCACH_XMIT_Q_NAME", "XmitQName"},
    {3506, MQN_STRING, "MQCACH_CONNECTION_NAME", "ConnectionName"},
    {3533, MQN_STRING, "MQCACH_FORMAT_NAME", "Format"},
    {7001, MQN_BYTES, "MQBACF_EVENT_ACCOUNTING_TOKEN", "EventAccountingToken"},
    {7002, MQN_BYTES, "MQBACF_EVENT_SECURITY_ID", "EventSecurityId"},
    {7010, MQN_BYTES, "MQBACF_ACCOUNTING_TOKEN", "AccountingToken"},
    {7011, MQN_BYTES, "MQBACF_CORREL_ID", "CorrelId"},
    {7012, MQN_BYTES, "MQBACF_GROUP_ID", "GroupId"},
    {7013, MQN_BYTES, "MQBACF_MSG_ID", "MsgId"},
    {7016, MQN_BYTES, "MQBACF_SUB_ID", "SubId"},
    {7020, MQN_BYTES, "MQBACF_MESSAGE_DATA", "MessageData"},
    {7032, MQN_BYTES, "MQBACF_SUB_CORREL_ID", "SubCorrelId"},
    {7034, MQN_BYTES, "MQBACF_XQH_CORREL_ID", "XQHCorrelId"},
    {7035, MQN_BYTES, "MQBACF_XQH_MSG_ID", "XQHMsgId"},
    {8001, MQN_GROUP, "MQGACF_COMMAND_CONTEXT", "CommandContext"},
    {8002, MQN_GROUP, "MQGACF_COMMAND_DATA", "CommandData"},
    {8003, MQN_GROUP, "MQGACF_TRACE_ROUTE", "TraceRoute"},
    {8004, MQN_GROUP, "MQGACF_OPERATION", "Operation"},
    {8005, MQN_GROUP, "MQGACF_ACTIVITY", "Activity"},
    {8006, MQN_GROUP, "MQGACF_EMBEDDED_MQMD", "EmbeddedMQMD"},
    {8007, MQN_GROUP, "MQGACF_MESSAGE", "Message"},
    {8008, MQN_GROUP, "MQGACF_MQMD", "MQMD"},
    {8009, MQN_GROUP, "MQGACF_VALUE_NAMING", "ValueNaming"},
    {8010, MQN_GROUP, "MQGACF_Q_ACCOUNTING_DATA", "QAccountingData"},
    {8011, MQN_GROUP, "MQGACF_Q_STATISTICS_DATA", "QStatisticsData"},
    {8012, MQN_GROUP, "MQGACF_CHL_STATISTICS_DATA", "ChlStatisticsData"},
    {8013, MQN_GROUP, "MQGACF_ACTIVITY_TRACE", "ActivityTrace"},
    {8014, MQN_GROUP, "MQGACF_APP_DIST_LIST", "AppDistList"},
    {8015, MQN_GROUP, "MQGACF_MONITOR_CLASS", "MonitorClass"},
    {8016, MQN_GROUP, "MQGACF_MONITOR_TYPE", "MonitorType"},
    {8017, MQN_GROUP, "MQGACF_MONITOR_ELEMENT", "MonitorElement"},
    {8018, MQN_GROUP, "MQGACF_APPL_STATUS", "ApplStatus"},
    {8019, MQN_GROUP, "MQGACF_CHANGED_APPLS", "ChangedAppls"},
    {8020, MQN_GROUP, "MQGACF_ALL_APPLS", "AllAppls"},
    {8021, MQN_GROUP, "MQGACF_APPL_BALANCE", "ApplBalance"},
};

/* The kind of a structure of PCF by its type, MQN_NONE if the type is unknown. */
static inline enum mqn_kind mqn_kind_of(uint64_t type)
{
    switch (type) {
    case 3: case 5: case 13: case 23: case 25: return MQN_INTEGER;
    case 4: case 6: case 14: return MQN_STRING;
    case 9: case 15: return MQN_BYTES;
    case 20: return MQN_GROUP;
    default: return MQN_NONE;
    }
}

/* The table's row of an identifier, or a null pointer. The kind must be the table's, because a string under an integer's
 * identifier is something that only its sender has a name for. */
static inline const struct mqn_name *mqn_name_of(uint64_t identifier, enum mqn_kind kind)
{
    for (size_t i = 0; i < sizeof mqn_names / sizeof mqn_names[0]; i++) {
        if (mqn_names[i].identifier == identifier && mqn_names[i].kind == kind) {
            return &mqn_names[i];
        }
    }
    return NULL;
}

#endif
