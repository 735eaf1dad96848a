#!/usr/bin/env python3
"""Writes examples/standard_nodes.toml: nodes of the standard's own namespace, as far as a node file can say them.

    scripts/authoring/standard_nodes.py [--operations N] [--points N] [--page N] > examples/standard_nodes.toml

The numbers, names and types are those of IEC 62541-5 and of IEC 62541-6, Annex A; the base nodes, which every server has, aren't among
them. The options are the settings `operations`, `points` and `history_page` of the node file to which the output is to be appended.
"""
import argparse

# Number, name, class, parent, reference from the parent (45 HasSubtype, 46 HasProperty, 47 HasComponent, 35 Organizes), and what else.
# A capital number stands for a setting.
TABLE = '''
# The folders of types
88 ObjectTypes Object 86 35 folder
89 VariableTypes Object 86 35 folder
90 DataTypes Object 86 35 folder
91 ReferenceTypes Object 86 35 folder
62 BaseVariableType VariableType 89 35 abstract

# Data types
24 BaseDataType DataType 90 35 abstract
1 Boolean DataType 24 45
26 Number DataType 24 45 abstract
27 Integer DataType 26 45 abstract
2 SByte DataType 27 45
4 Int16 DataType 27 45
6 Int32 DataType 27 45
8 Int64 DataType 27 45
28 UInteger DataType 26 45 abstract
3 Byte DataType 28 45
5 UInt16 DataType 28 45
7 UInt32 DataType 28 45
9 UInt64 DataType 28 45
10 Float DataType 26 45
11 Double DataType 26 45
12 String DataType 24 45
13 DateTime DataType 24 45
14 Guid DataType 24 45
15 ByteString DataType 24 45
30 Image DataType 15 45 abstract
16 XmlElement DataType 24 45
17 NodeId DataType 24 45
18 ExpandedNodeId DataType 24 45
19 StatusCode DataType 24 45
20 QualifiedName DataType 24 45
21 LocalizedText DataType 24 45
22 Structure DataType 24 45 abstract
23 DataValue DataType 24 45
25 DiagnosticInfo DataType 24 45
29 Enumeration DataType 24 45 abstract

# Reference types
36 HasEventSource ReferenceType 33 45 inverse=EventSourceOf
48 HasNotifier ReferenceType 36 45 inverse=NotifierOf
37 HasModellingRule ReferenceType 32 45 inverse=ModellingRuleOf
38 HasEncoding ReferenceType 32 45 inverse=EncodingOf
39 HasDescription ReferenceType 32 45 inverse=DescriptionOf
41 GeneratesEvent ReferenceType 32 45 inverse=GeneratedBy
49 HasOrderedComponent ReferenceType 47 45 inverse=OrderedComponentOf
56 HasHistoricalConfiguration ReferenceType 44 45 inverse=HistoricalConfigurationOf

# Types of objects
2004 ServerType ObjectType 58 45
2013 ServerCapabilitiesType ObjectType 58 45
2020 ServerDiagnosticsType ObjectType 58 45
2033 VendorServerInfoType ObjectType 58 45
2034 ServerRedundancyType ObjectType 58 45
2330 HistoryServerCapabilitiesType ObjectType 58 45
11564 OperationLimitsType ObjectType 61 45
11645 NamespacesType ObjectType 58 45

# The server
2267 ServiceLevel Byte 2253 46 255
2994 Auditing Boolean 2253 46 false
2274 ServerDiagnostics Object 2253 47 2020
2294 EnabledFlag Boolean 2274 46 false
2295 VendorServerInfo Object 2253 47 2033
2296 ServerRedundancy Object 2253 47 2034
3709 RedundancySupport Int32 2296 46 0
11715 Namespaces Object 2253 47 11645
2268 ServerCapabilities Object 2253 47 2013
2269 ServerProfileArray String[] 2268 46 []
2271 LocaleIdArray String[] 2268 46 []
2735 MaxBrowseContinuationPoints UInt16 2268 46 POINTS
2736 MaxQueryContinuationPoints UInt16 2268 46 0
2737 MaxHistoryContinuationPoints UInt16 2268 46 POINTS
2996 ModellingRules Object 2268 47 folder
2997 AggregateFunctions Object 2268 47 folder

# What a request may hold
11704 OperationLimits Object 2268 47 11564
11705 MaxNodesPerRead UInt32 11704 46 OPERATIONS
12165 MaxNodesPerHistoryReadData UInt32 11704 46 OPERATIONS
11707 MaxNodesPerWrite UInt32 11704 46 OPERATIONS
11710 MaxNodesPerBrowse UInt32 11704 46 OPERATIONS
11714 MaxMonitoredItemsPerCall UInt32 11704 46 OPERATIONS

# What can be done with histories
11192 HistoryServerCapabilities Object 2268 47 2330
11193 AccessHistoryDataCapability Boolean 11192 46 true
11242 AccessHistoryEventsCapability Boolean 11192 46 false
11273 MaxReturnDataValues UInt32 11192 46 PAGE
11274 MaxReturnEventValues UInt32 11192 46 0
11196 InsertDataCapability Boolean 11192 46 false
11197 ReplaceDataCapability Boolean 11192 46 false
11198 UpdateDataCapability Boolean 11192 46 false
11199 DeleteRawCapability Boolean 11192 46 false
11200 DeleteAtTimeCapability Boolean 11192 46 false
11281 InsertEventCapability Boolean 11192 46 false
11282 ReplaceEventCapability Boolean 11192 46 false
11283 UpdateEventCapability Boolean 11192 46 false
11502 DeleteEventCapability Boolean 11192 46 false
11275 InsertAnnotationCapability Boolean 11192 46 false
19091 ServerTimestampSupported Boolean 11192 46 true
11201 AggregateFunctions Object 11192 47 folder
'''

# References between these and the base nodes, which have another parent.
REFERENCES = [(88, 35, 58), (62, 45, 63), (62, 45, 68), (91, 35, 31)]

HEAD = '''# {count} nodes of the standard's own namespace, to be appended to a node file of version 2:
#
#     cat my_nodes.toml examples/standard_nodes.toml > nodes.toml
#
# Made by scripts/authoring/standard_nodes.py, for `operations` {operations}, `points` {points} and `history_page` {page}; make it anew where yours
# are others.
#
# A node file can't say these, so that they aren't here:
# - ServerStatus (i=2256) and BuildInfo (i=2260), ServerDiagnosticsSummary and SoftwareCertificates, which are structures; and what is
#   below them. State (i=2259) is a base node;
# - CurrentTime (i=2258) and StartTime (i=2257): a value of the file stands still;
# - MinSupportedSampleRate (i=2272), a Double, and ShutdownReason (i=2993), a LocalizedText;
# - methods, as GetMonitoredItems (i=11492), events and their types.
# Left out, though it could be said: limits of services that aren't served, and MaxArrayLength and MaxStringLength, for which only a
# message's size counts. Another type than in the standard have BaseVariableType (String, for BaseDataType) and RedundancySupport (Int32,
# for an enumeration). The Server object (i=2253) stays of the type BaseObjectType.
'''
LISTED = '[]'


def entry(words, settings):
    """A node as TOML."""
    number, name, kind, parent, via, *more = words
    lines = ['[[node]]', f'id = "i={number}"', '', f'name = "{name}"', f'parent = "i={parent}"', f'via = "i={via}"']
    if kind in ('Object', 'ObjectType', 'VariableType', 'DataType', 'ReferenceType'):
        lines[2] = f'class = "{kind}"'
        for word in more:
            if word == 'abstract':
                lines.append('abstract = true')
            elif word.startswith('inverse='):
                lines.append(f'inverse = "{word[8:]}"')
            else:
                lines.append('definition = "i=61"' if word == 'folder' else f'definition = "i={word}"')
        if kind == 'VariableType':
            lines.append('type = "String"')
    else:
        lines[2] = 'class = "Variable"'
        lines += ['definition = "i=68"', f'type = "{kind.replace(LISTED, "")}"', f'value = {settings.get(more[0], more[0])}']
        if kind.endswith(LISTED):
            lines.append('list = true')
    return '\n'.join(lines)


def main():
    parser = argparse.ArgumentParser(description=__doc__.split('\n')[0])
    parser.add_argument('--operations', type=int, default=1000)
    parser.add_argument('--points', type=int, default=10)
    parser.add_argument('--page', type=int, default=1000)
    arguments = parser.parse_args()
    settings = {'OPERATIONS': arguments.operations, 'POINTS': min(arguments.points, 65535), 'PAGE': arguments.page}
    rows = [line for line in TABLE.splitlines() if line]
    count = sum(not row.startswith('#') for row in rows)
    print(HEAD.format(count=count, operations=arguments.operations, points=arguments.points, page=arguments.page))
    for row in rows:
        print(f'# ---- {row[2:]}\n' if row.startswith('#') else entry(row.split(), settings) + '\n')
    print('# ---- References to base nodes\n')
    for begin, kind, end in REFERENCES:
        print(f'[[reference]]\nfrom = "i={begin}"\ntype = "i={kind}"\nto = "i={end}"\n')


if __name__ == '__main__':
    main()
