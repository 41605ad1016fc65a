"""Gate lists as commands of Linux: tc-taprio(8), one for the device at which each link begins."""
import re

from .gates import QUEUES, link_title
from .troubles import BadValue

TICK = 1000  # nanoseconds
PRIORITIES = 16
ROW = "{link}"  # stands for a link's row in the name of a device
DEVICE = re.compile(r"[A-Za-z0-9_][A-Za-z0-9_.-]{0,14}")


def devices(plan, links, text):
    """A device for each of these links: one name for all, or one for each, joined by commas. Links from one node have different devices,
    since a second list would take the place of the first."""
    names = text.split(",")
    if len(names) not in (1, len(links)):
        raise BadValue(f"{len(names)} devices for {len(links)} links; name one for all, or one for each in the order of rows")
    if len(names) == 1:
        names *= len(links)
    named, taken = [name.replace(ROW, str(link)) for name, link in zip(names, links)], {}
    for link, name in zip(links, named):
        if not DEVICE.fullmatch(name):
            raise BadValue(f"'{name}' is no name of a device; write 1 to 15 letters, digits, _ . -")
        node = plan.rows["link"][link].from_node
        other = taken.setdefault((node, name), link)
        if other != link:
            both = " and ".join(plan.title("link", each) for each in (other, link))
            raise BadValue(f"{name} would be the device of {both}, which both leave node {node}; {ROW} in a name stands for the link's row")
    return named


def command(file, link, device, gates):
    """A comment that names the link, and the command that sets its gates at the device."""
    settings = [
        f"tc qdisc replace dev {device} parent root handle 100 taprio",
        f"num_tc {QUEUES} map {_listed(priority if priority < QUEUES else 0 for priority in range(PRIORITIES))}",
        f"queues {_listed(f'1@{queue}' for queue in range(QUEUES))}",
        f"base-time 0 cycle-time {file.plan.cycle * TICK}",
        *(f"sched-entry S {gate.octet:02x} {gate.interval * TICK}" for gate in gates),
        "clockid CLOCK_TAI",
    ]
    return [f"# {link_title(file, link)}", " ".join(settings)]


def _listed(words):
    return " ".join(map(str, words))
