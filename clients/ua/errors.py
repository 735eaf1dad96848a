"""What goes wrong, and statuses by name (IEC 62541-4, clause 7, StatusCode; IEC 62541-6, Annex A).

A status is a number of 32 bits. Its two highest bits say good (0), uncertain (1) or bad (2); its upper half has the name, and of a
value's status the lower half may say that values before it were lost.
"""

# Statuses by the upper 16 bits of their code.
STATUS_NAMES = {
    0x0000: 'Good', 0x002D: 'Good_SubscriptionTransferred', 0x002E: 'Good_CompletesAsynchronously', 0x002F: 'Good_Overload',
    0x0030: 'Good_Clamped', 0x0096: 'Good_LocalOverride', 0x00A2: 'Good_EntryInserted', 0x00A3: 'Good_EntryReplaced',
    0x00A5: 'Good_NoData', 0x00A6: 'Good_MoreData', 0x00BA: 'Good_ResultsMayBeIncomplete', 0x4000: 'Uncertain',
    0x406C: 'Uncertain_ReferenceOutOfServer', 0x408F: 'Uncertain_NoCommunicationLastUsableValue',
    0x4090: 'Uncertain_LastUsableValue', 0x4091: 'Uncertain_SubstituteValue', 0x4092: 'Uncertain_InitialValue',
    0x4093: 'Uncertain_SensorNotAccurate', 0x4094: 'Uncertain_EngineeringUnitsExceeded', 0x4095: 'Uncertain_SubNormal',
    0x40A4: 'Uncertain_DataSubNormal', 0x40BC: 'Uncertain_ReferenceNotDeleted', 0x40C0: 'Uncertain_NotAllNodesAvailable',
    0x8000: 'Bad', 0x8001: 'Bad_UnexpectedError', 0x8002: 'Bad_InternalError', 0x8003: 'Bad_OutOfMemory',
    0x8004: 'Bad_ResourceUnavailable', 0x8005: 'Bad_CommunicationError', 0x8006: 'Bad_EncodingError', 0x8007: 'Bad_DecodingError',
    0x8008: 'Bad_EncodingLimitsExceeded', 0x8009: 'Bad_UnknownResponse', 0x800A: 'Bad_Timeout', 0x800B: 'Bad_ServiceUnsupported',
    0x800C: 'Bad_Shutdown', 0x800D: 'Bad_ServerNotConnected', 0x800E: 'Bad_ServerHalted', 0x800F: 'Bad_NothingToDo',
    0x8010: 'Bad_TooManyOperations', 0x8011: 'Bad_DataTypeIdUnknown', 0x8012: 'Bad_CertificateInvalid',
    0x8013: 'Bad_SecurityChecksFailed', 0x801A: 'Bad_CertificateUntrusted', 0x801F: 'Bad_UserAccessDenied',
    0x8020: 'Bad_IdentityTokenInvalid', 0x8021: 'Bad_IdentityTokenRejected', 0x8022: 'Bad_SecureChannelIdInvalid',
    0x8023: 'Bad_InvalidTimestamp', 0x8024: 'Bad_NonceInvalid', 0x8025: 'Bad_SessionIdInvalid', 0x8026: 'Bad_SessionClosed',
    0x8027: 'Bad_SessionNotActivated', 0x8028: 'Bad_SubscriptionIdInvalid', 0x802A: 'Bad_RequestHeaderInvalid',
    0x802B: 'Bad_TimestampsToReturnInvalid', 0x802C: 'Bad_RequestCancelledByClient', 0x8031: 'Bad_NoCommunication',
    0x8032: 'Bad_WaitingForInitialData', 0x8033: 'Bad_NodeIdInvalid', 0x8034: 'Bad_NodeIdUnknown', 0x8035: 'Bad_AttributeIdInvalid',
    0x8036: 'Bad_IndexRangeInvalid', 0x8037: 'Bad_IndexRangeNoData', 0x8038: 'Bad_DataEncodingInvalid',
    0x8039: 'Bad_DataEncodingUnsupported', 0x803A: 'Bad_NotReadable', 0x803B: 'Bad_NotWritable', 0x803C: 'Bad_OutOfRange',
    0x803D: 'Bad_NotSupported', 0x803E: 'Bad_NotFound', 0x803F: 'Bad_ObjectDeleted', 0x8040: 'Bad_NotImplemented',
    0x8041: 'Bad_MonitoringModeInvalid', 0x8042: 'Bad_MonitoredItemIdInvalid', 0x8043: 'Bad_MonitoredItemFilterInvalid',
    0x8044: 'Bad_MonitoredItemFilterUnsupported', 0x8045: 'Bad_FilterNotAllowed', 0x8046: 'Bad_StructureMissing',
    0x804A: 'Bad_ContinuationPointInvalid', 0x804B: 'Bad_NoContinuationPoints', 0x804C: 'Bad_ReferenceTypeIdInvalid',
    0x804D: 'Bad_BrowseDirectionInvalid', 0x804E: 'Bad_NodeNotInView', 0x804F: 'Bad_ServerUriInvalid',
    0x8053: 'Bad_RequestTypeInvalid', 0x8054: 'Bad_SecurityModeRejected', 0x8055: 'Bad_SecurityPolicyRejected',
    0x8056: 'Bad_TooManySessions', 0x8057: 'Bad_UserSignatureInvalid', 0x8058: 'Bad_ApplicationSignatureInvalid',
    0x8059: 'Bad_NoValidCertificates', 0x805A: 'Bad_RequestCancelledByRequest', 0x806A: 'Bad_ServerIndexInvalid',
    0x806B: 'Bad_ViewIdUnknown', 0x8070: 'Bad_MaxAgeInvalid', 0x8071: 'Bad_HistoryOperationInvalid',
    0x8072: 'Bad_HistoryOperationUnsupported', 0x8073: 'Bad_WriteNotSupported', 0x8074: 'Bad_TypeMismatch',
    0x8075: 'Bad_MethodInvalid', 0x8076: 'Bad_ArgumentsMissing', 0x8077: 'Bad_TooManySubscriptions',
    0x8078: 'Bad_TooManyPublishRequests', 0x8079: 'Bad_NoSubscription', 0x807A: 'Bad_SequenceNumberUnknown',
    0x807B: 'Bad_MessageNotAvailable', 0x807C: 'Bad_InsufficientClientProfile', 0x807D: 'Bad_TcpServerTooBusy',
    0x807E: 'Bad_TcpMessageTypeInvalid', 0x807F: 'Bad_TcpSecureChannelUnknown', 0x8080: 'Bad_TcpMessageTooLarge',
    0x8081: 'Bad_TcpNotEnoughResources', 0x8082: 'Bad_TcpInternalError', 0x8083: 'Bad_TcpEndpointUrlInvalid',
    0x8084: 'Bad_RequestInterrupted', 0x8085: 'Bad_RequestTimeout', 0x8086: 'Bad_SecureChannelClosed',
    0x8087: 'Bad_SecureChannelTokenUnknown', 0x8088: 'Bad_SequenceNumberInvalid', 0x8089: 'Bad_ConfigurationError',
    0x808A: 'Bad_NotConnected', 0x808B: 'Bad_DeviceFailure', 0x808C: 'Bad_SensorFailure', 0x808D: 'Bad_OutOfService',
    0x808E: 'Bad_DeadbandFilterInvalid', 0x809B: 'Bad_NoData', 0x809D: 'Bad_DataLost', 0x809E: 'Bad_DataUnavailable',
    0x80AB: 'Bad_InvalidArgument', 0x80AC: 'Bad_ConnectionRejected', 0x80AD: 'Bad_Disconnect', 0x80AE: 'Bad_ConnectionClosed',
    0x80AF: 'Bad_InvalidState', 0x80B0: 'Bad_EndOfStream', 0x80B6: 'Bad_SyntaxError', 0x80B7: 'Bad_MaxConnectionsReached',
    0x80B8: 'Bad_RequestTooLarge', 0x80B9: 'Bad_ResponseTooLarge', 0x80BE: 'Bad_ProtocolVersionUnsupported',
    0x80BF: 'Bad_StateNotActive', 0x80C6: 'Bad_IdentityChangeNotSupported', 0x80DB: 'Bad_TooManyMonitoredItems',
}
CODES = {name: number << 16 for number, name in STATUS_NAMES.items()}

OVERFLOW = 0x480  # InfoType DataValue, InfoBits Overflow


def status_name(code):
    """A status by name, with its number where it has none here."""
    return STATUS_NAMES.get(code >> 16) or f'status {code:08x}'


def status_code(text):
    """The status that a text names: Bad_OutOfRange, BadOutOfRange, or its 8 hex digits, with 0x or without. ValueError for another."""
    for name in (text, text.replace('Bad', 'Bad_', 1), text.replace('Uncertain', 'Uncertain_', 1), text.replace('Good', 'Good_', 1)):
        if name in CODES:
            return CODES[name]
    digits = text[2:] if text.lower().startswith('0x') else text
    if len(digits) == 8 and all(digit in '0123456789abcdefABCDEF' for digit in digits):
        return int(digits, 16)
    raise ValueError(f'{text!r} is no status, as Bad_OutOfRange or 803C0000 is one')


def is_bad(code):
    return code >> 30 >= 2


def lost_before(code):
    """Whether the status of a value says that values before it were lost (IEC 62541-4, StatusCode, Overflow)."""
    return code & OVERFLOW == OVERFLOW


def value_status(code):
    """The status of a value in words."""
    return status_name(code) + (', values before it were lost' if lost_before(code) else '')


class Refused(Exception):
    """The server refused something. `code` is the status, `name` its name."""

    def __init__(self, what, code, reason=None):
        said = f': {reason}' if reason else ''
        self.code, self.name = code, status_name(code)
        super().__init__(f'{what}: {self.name} ({code:08x}){said}')


class Broken(Exception):
    """The connection can't be had or ended, or what came is no message of the standard."""
