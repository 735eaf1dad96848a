"""An OPC UA client: opc.tcp, binary encoding, no security, an anonymous user. Python's own library is all that it needs (3.8 or later).

    from ua import DataValue, NodeId, Session, Watch

    with Session('opc.tcp://localhost:4840') as session:
        print(session.read([NodeId.of_text('ns=1;i=11')])[0].value)

README.md beside this file says which module has what.
"""
from .errors import Broken, Refused, is_bad, lost_before, status_code, status_name  # noqa: F401
from .session import Session  # noqa: F401
from .subscription import Back, Ended, Gap, Item, KeepAlive, Lost, Message, Started, Watch  # noqa: F401
from .types import DataValue, NodeId, now, time_of_text, time_text  # noqa: F401
