"""Requests that only the teacher of a class makes."""

import asyncio

from ..core.codes import WALL
from ..core.messages import CodesResult, Result
from ..core.bad_request import BadRequest
from ..core.requests import (
    ClockRequest,
    CodesRequest,
    ExercisesRequest,
    GiveRequest,
    LowerHandRequest,
    RenewRequest,
    Request,
    ResetRequest,
    RightsRequest,
    ShoulderRequest,
    TakeBackRequest,
    UnsendRequest,
    WallRequest,
    WriteRequest,
)
from .sheet import pictures
from .served_class import Class
from .tab import Tab


async def execute_teachers(members: Class, tab: Tab, request: Request) -> Result:
    """Execute a request of a teacher's tab; return its result. Raises BadRequest."""
    match request:
        case GiveRequest() | TakeBackRequest():
            return {"replaced": _hand_out(members, request)}
        case WriteRequest(names, text):
            seats = members.seats(names)
            members.notices.add([seat.name for seat in seats], text)
            members.add_log_entry(seats, f"The teacher: {text}")
        case UnsendRequest(number):
            read = members.notices.unsend(number)
            members.tell(members.students)
            return {"read": read}
        case ExercisesRequest(names):
            await members.choose_exercises(names)
        case LowerHandRequest(name):
            members.set_hand(members.seat(name).name, up=False)
        case ResetRequest(name):
            seat, room = members.seat(name), members.rooms[name[0]]
            await room.run(seat, room.machine.reset(seat))
            members.add_log_entry([seat], "The teacher has taken this machine away. Your source is kept.")
        case ClockRequest(machine, settings):
            members.room(machine).set_clock(settings)
        case RightsRequest(machine, own_slices):
            members.room(machine).set_rights(own_slices)
        case RenewRequest(name):
            await members.renew(name if name == WALL else members.seat(name).name)
            return {"codes": members.codes.shown(name)}
        case ShoulderRequest(name):
            tab.shoulder = members.seat(name) if name else None
            if tab.shoulder:
                tab.sent.since.pop(tab.shoulder.name, None)
        case WallRequest(name):
            members.wall = members.seat(name) if name else None
            members.tell([WALL])
        case CodesRequest(name, with_pictures):
            return await _shown_codes(members, name, with_pictures)
    return {}


def _hand_out(members: Class, request: GiveRequest | TakeBackRequest) -> int:
    """Give or offer a source to seats, or take it back; return how many nonempty sources were replaced or restored.

    Raises BadRequest if there is no such seat.
    """
    seats, students = members.seats(request.seats), members.students
    match request:
        case GiveRequest(source=source, how="offer", title=title):
            members.notices.offer([seat.name for seat in seats], title, source)
            members.add_log_entry(seats, f"The teacher offers a source{f': {title}' if title else '.'}")
            return 0
        case GiveRequest(names, source):
            replaced = sum(students[seat.name].source.give(source) for seat in seats)
            members.add_log_entry(seats, "The teacher gave a source. Your own is kept, as a version.")
            members.given = {"seats": [*names], "replaced": replaced}
            return replaced
        case TakeBackRequest():
            members.given = None
            back = [seat for seat in seats if students[seat.name].source.take_back()]
            members.add_log_entry(back, "The teacher took a source back. Your own is in the editor again.")
            return sum(students[seat.name].source.own.text != "" for seat in back)


async def _shown_codes(members: Class, name: str, with_pictures: bool) -> CodesResult:
    """Return the code of a seat or the wall, or all codes if `name` is "". Raises BadRequest for an unknown name.

    with_pictures: whether to add QR codes, if the class has an address
    """
    if not (codes := members.codes.shown(name)):
        raise BadRequest("there is no such seat")
    if not with_pictures or not members.address:
        return {"codes": codes, "pictures": {}}
    return {"codes": codes, "pictures": await asyncio.to_thread(pictures, members.address, codes)}
