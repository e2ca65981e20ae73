"""The state of a front, as its own socket tells it."""
import os
from typing import TYPE_CHECKING

from cca.version import VERSION
from cca_service.service import Service

if TYPE_CHECKING:
    from cca_service.connections import Door
    from cca_service.front import Front

State = dict[str, object]


def program_of(service: Service) -> State:
    """The program that runs, and whether another one has its name."""
    return {**service.program.shown(), "is_replaced": service.program.is_replaced()}


def door_of(door: "Door", limit: int) -> State:
    """The socket of a role. `ready` are the connections that have a line which waits."""
    counts = {"connections": len(door.connections), "limit": limit, "ready": len(door.ready)}
    return {"role": door.role, "socket": os.path.abspath(door.path), "group": door.group or None, **counts}


def state_of(front: "Front") -> State:
    """All of it."""
    service, journal, control = front.service, front.journal, front.control
    return {
        "pid": os.getpid(),
        "started": front.started,
        "version": VERSION,
        "folder": os.path.abspath(front.settings.folder),
        "audit": os.path.abspath(front.settings.audit) if front.settings.audit else None,
        "program": program_of(service),
        "cca": {"pid": service.cca.pid(), "started": service.cca.started_at, "starts": service.cca.starts},
        "doors": [door_of(door, front.limit) for door in front.doors],
        "connections": sum(len(door.connections) for door in front.doors),
        "requests": journal.counts.requests(),
        "latency": journal.counts.latency(),
        "trail": service.trail_shown(),
        "journal": {"left_out": journal.all_left_out},
        "turned_away": journal.counts.turned_away,
        "is_held": front.is_held(),
        "hold_seconds": round(control.held_for(), 3) if control else 0.0,
    }
