"""The structures and messages of the services (IEC 62541-4), as IEC 62541-6, 5.2.6 encodes them: field after field.

`STRUCTURES` has each by its name. A structure is written from a dict, in which a field may be left out that is null, 0 or empty, and is
read into an object with its fields. `*` behind a type is a list. A number behind a name is the id of the binary encoding (IEC 62541-6,
Annex A), by which messages and ExtensionObjects name it. The header isn't among the fields of a message.
"""
from types import SimpleNamespace

from .encoding import METHODS, NULLS, Reader, Writer
from .types import Extension, numbered

TABLE = '''
RequestHeader                    token:NodeId time:DateTime handle:UInt32 diagnostics:UInt32 audit:String timeout:UInt32 more:ExtensionObject
ResponseHeader                   time:DateTime handle:UInt32 result:StatusCode diagnostics:DiagnosticInfo texts:String* more:ExtensionObject
ServiceFault 397

# 5.4.4 GetEndpoints; clause 7, ApplicationDescription, EndpointDescription, UserTokenPolicy
ApplicationDescription           uri:String product:String name:LocalizedText kind:UInt32 gateway:String profile:String urls:String*
UserTokenPolicy                  policy:String kind:UInt32 issued:String issuer:String security:String
EndpointDescription              url:String server:ApplicationDescription certificate:ByteString mode:UInt32 policy:String users:UserTokenPolicy* transport:String level:Byte
GetEndpointsRequest 428          url:String locales:String* profiles:String*
GetEndpointsResponse 431         endpoints:EndpointDescription*

# 5.5 SecureChannel Service Set
OpenSecureChannelRequest 446     version:UInt32 kind:UInt32 mode:UInt32 nonce:ByteString lifetime:UInt32
OpenSecureChannelResponse 449    version:UInt32 channel:UInt32 token:UInt32 created:DateTime lifetime:UInt32 nonce:ByteString
CloseSecureChannelRequest 452

# 5.6 Session Service Set; clause 7, SignatureData, AnonymousIdentityToken
SignatureData                    algorithm:String signature:ByteString
SoftwareCertificate              data:ByteString signature:ByteString
CreateSessionRequest 461         client:ApplicationDescription server:String url:String name:String nonce:ByteString certificate:ByteString timeout:Double largest:UInt32
CreateSessionResponse 464        session:NodeId token:NodeId timeout:Double nonce:ByteString certificate:ByteString endpoints:EndpointDescription* software:SoftwareCertificate* signature:SignatureData largest:UInt32
AnonymousIdentityToken 321       policy:String
ActivateSessionRequest 467       signature:SignatureData software:SoftwareCertificate* locales:String* user:ExtensionObject user_signature:SignatureData
ActivateSessionResponse 470      nonce:ByteString results:StatusCode* diagnostics:DiagnosticInfo*
CloseSessionRequest 473          delete:Boolean
CloseSessionResponse 476

# 5.8 View Service Set: 5.8.2 Browse, 5.8.3 BrowseNext; clause 7, ViewDescription, ReferenceDescription
ViewDescription                  view:NodeId time:DateTime version:UInt32
BrowseDescription                node:NodeId direction:UInt32 type:NodeId subtypes:Boolean classes:UInt32 results:UInt32
ReferenceDescription             type:NodeId is_forward:Boolean node:ExpandedNodeId browse_name:QualifiedName display_name:LocalizedText node_class:UInt32 definition:ExpandedNodeId
BrowseResult                     status:StatusCode point:ByteString references:ReferenceDescription*
BrowseRequest 527                view:ViewDescription most:UInt32 entries:BrowseDescription*
BrowseResponse 530               results:BrowseResult* diagnostics:DiagnosticInfo*
BrowseNextRequest 533            release:Boolean entries:ByteString*
BrowseNextResponse 536           results:BrowseResult* diagnostics:DiagnosticInfo*

# 5.10 Attribute Service Set: 5.10.2 Read, 5.10.3 HistoryRead, 5.10.4 Write; clause 7, ReadValueId; IEC 62541-11, ReadRawModifiedDetails, HistoryData
ReadValueId                      node:NodeId attribute:UInt32 range:String encoding:QualifiedName
ReadRequest 631                  age:Double times:UInt32 entries:ReadValueId*
ReadResponse 634                 results:DataValue* diagnostics:DiagnosticInfo*
WriteValue                       node:NodeId attribute:UInt32 range:String value:DataValue
WriteRequest 673                 entries:WriteValue*
WriteResponse 676                results:StatusCode* diagnostics:DiagnosticInfo*
HistoryReadValueId               node:NodeId range:String encoding:QualifiedName point:ByteString
HistoryReadResult                status:StatusCode point:ByteString data:ExtensionObject
ReadRawModifiedDetails 649       modified:Boolean start:DateTime end:DateTime most:UInt32 bounds:Boolean
HistoryData 658                  values:DataValue*
HistoryReadRequest 664           details:ExtensionObject times:UInt32 release:Boolean entries:HistoryReadValueId*
HistoryReadResponse 667          results:HistoryReadResult* diagnostics:DiagnosticInfo*

# 5.12 MonitoredItem Service Set: 5.12.2 CreateMonitoredItems; clause 7, MonitoringParameters, DataChangeFilter
DataChangeFilter 724             trigger:UInt32 deadband:UInt32 amount:Double
MonitoringParameters             handle:UInt32 sampling:Double filter:ExtensionObject queue:UInt32 discard_oldest:Boolean
MonitoredItemCreateRequest       item:ReadValueId mode:UInt32 wanted:MonitoringParameters
MonitoredItemCreateResult        status:StatusCode item:UInt32 sampling:Double queue:UInt32 filter:ExtensionObject
CreateMonitoredItemsRequest 751  subscription:UInt32 times:UInt32 entries:MonitoredItemCreateRequest*
CreateMonitoredItemsResponse 754 results:MonitoredItemCreateResult* diagnostics:DiagnosticInfo*

# 5.13 Subscription Service Set: 5.13.2 create, 5.13.5 Publish, 5.13.6 Republish, 5.13.8 delete; clause 7, NotificationData, NotificationMessage
CreateSubscriptionRequest 787    interval:Double lifetime:UInt32 keep_alive:UInt32 most:UInt32 enabled:Boolean priority:Byte
CreateSubscriptionResponse 790   subscription:UInt32 interval:Double lifetime:UInt32 keep_alive:UInt32
Acknowledgement                  subscription:UInt32 number:UInt32
NotificationMessage              number:UInt32 time:DateTime notifications:ExtensionObject*
MonitoredItemNotification        item:UInt32 value:DataValue
DataChangeNotification 811       items:MonitoredItemNotification* diagnostics:DiagnosticInfo*
StatusChangeNotification 820     status:StatusCode diagnostics:DiagnosticInfo
PublishRequest 826               acknowledged:Acknowledgement*
PublishResponse 829              subscription:UInt32 available:UInt32* more:Boolean message:NotificationMessage results:StatusCode* diagnostics:DiagnosticInfo*
RepublishRequest 832             subscription:UInt32 number:UInt32
RepublishResponse 835            message:NotificationMessage
DeleteSubscriptionsRequest 847   entries:UInt32*
DeleteSubscriptionsResponse 850  results:StatusCode* diagnostics:DiagnosticInfo*
'''


class Structure:
    """How a structure is written and read: for each field its name, its two functions and its null."""

    def __init__(self, name, number, fields):
        self.name, self.number = name, number
        self.fields = []
        for field in fields:
            key, _, kind = field.partition(':')
            self.fields.append((key, *self.functions(kind)))
        self.keys = {key for key, *_ in self.fields}

    @staticmethod
    def functions(kind):
        name = kind.rstrip('*')
        if name in METHODS:
            write, read, null = getattr(Writer, METHODS[name]), getattr(Reader, METHODS[name]), NULLS.get(name, 0)
        else:
            one = STRUCTURES[name]
            write, read, null = one.write, one.read, {}
        if kind == name:
            return write, read, null
        return lambda out, values: out.array(values, write), lambda data: data.array(lambda: read(data)), ()

    def write(self, out, values):
        if not self.keys >= values.keys():
            raise TypeError(f'{self.name} has no {", ".join(values.keys() - self.keys)}')
        for key, write, _, null in self.fields:
            write(out, values.get(key, null))
        return out

    def read(self, data):
        return SimpleNamespace(**{key: read(data) for key, _, read, _ in self.fields})


STRUCTURES = {}
for line in TABLE.splitlines():
    words = line.split()
    if words and words[0] != '#':
        has_number = len(words) > 1 and words[1].isdigit()
        STRUCTURES[words[0]] = Structure(words[0], int(words[1]) if has_number else None, words[1 + has_number:])
MESSAGES = {name: one.number for name, one in STRUCTURES.items() if one.number and name.endswith(('Request', 'Response', 'Fault'))}
BY_NUMBER = {one.number: one for one in STRUCTURES.values() if one.number}


def extension(name, **fields):
    """A structure as an ExtensionObject."""
    one = STRUCTURES[name]
    return Extension(numbered(one.number), bytes(one.write(Writer(), fields).bytes))


def of_extension(value):
    """The name of the structure in an ExtensionObject, and its fields; None and None for one that isn't in the table."""
    one = BY_NUMBER.get(value.type.value) if value.type == numbered(value.type.value) else None
    if one is None or value.body is None:
        return None, None
    return one.name, one.read(Reader(value.body))
