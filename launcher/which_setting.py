#!/usr/bin/env python3
"""which_setting.py LINE CONFIG [CLIENTS]: says on standard error which setting of CONFIG is at fault, where a program, asked
for so many clients on threads, has said in this line what kind of fault it is. It says nothing where it finds none, and where
this Python reads no TOML."""
import sys

try:
    import tomllib
except ImportError:
    sys.exit()

# Each key with the values that it may have, in the order in which programs look at them.
WHOLE = {
    "sector_size": (512, 4096),
    "sectors": range(1, 2**40 + 1),
    "max_transfer": range(1, 65_536 + 1),
    "depth": range(1, 32 + 1),
    "window": range(1, 64 + 1),
    "open_requests": range(1, 64 + 1),
}
OPTIONAL = ("open_requests", "type")
OF_PARTITION = {"first": range(2**32), "count": range(2**32), "type": range(1, 255 + 1)}
OF_RULE = {"every": range(1, 2**63), "times": range(1, 2**63), "first": range(2**63), "count": range(2**63)}
KINDS = ("medium_error", "hardware_error", "not_ready", "aborted_command", "busy", "delay")
OF_DELAY = {"ms": range(1, 60_000 + 1)}
NOT_OF_SCRIPTS = ("busy", "delay")
RULE_KEYS = ("kind", *OF_RULE, *OF_DELAY)
KEYS = (*WHOLE, "write_protected", "bad_sectors", "fault", "partition")


def shown(value):
    """A value as TOML has it, cut short."""
    text = f'"{value}"' if isinstance(value, str) else str(value)
    text = text.lower() if isinstance(value, bool) else text
    return text if len(text) <= 40 else text[:37] + "..."


def of_range(values):
    """What is said of a range."""
    if isinstance(values, range):
        return f"it is {values[0]} to {values[-1]}"
    return "it is " + " or ".join(map(str, values))


def is_whole(value):
    return isinstance(value, int) and not isinstance(value, bool)


def numbers(table, ranges, where, optional=OPTIONAL):
    """The first key of a table that is missing or out of range."""
    for key, values in ranges.items():
        if key not in table:
            if key not in optional:
                return f"{where}{key} is missing: {of_range(values)}"
        elif not is_whole(table[key]) or table[key] not in values:
            return f"{where}{key} = {shown(table[key])}, and {of_range(values)}"
    return None


def listed(settings, key):
    """The values of a list, none where no list is."""
    found = settings.get(key, [])
    return found if isinstance(found, list) else []


def unknown(settings, partitions):
    """The first key that no setting has."""
    for key in settings:
        if key not in KEYS:
            return f"{shown(key)} is no key: there are {', '.join(KEYS)}"
    for at, rule in enumerate(listed(settings, "fault")):
        for key in rule if isinstance(rule, dict) else ():
            if key not in RULE_KEYS:
                return f"fault {at}: {shown(key)} is no key: there are {', '.join(RULE_KEYS)}"
    for at, partition in enumerate(partitions):
        for key in partition if isinstance(partition, dict) else ():
            if key not in OF_PARTITION:
                return f"partition {at}: {shown(key)} is no key: there are {', '.join(OF_PARTITION)}"
    return None


def in_delay(rule, where):
    """What is wrong with the time of a rule."""
    if rule["kind"] == "delay":
        return numbers(rule, OF_DELAY, where)
    if "ms" in rule:
        return f"{where}ms = {shown(rule['ms'])}, and it is for the kind delay alone"
    return None


def in_rules(settings):
    """The first fault of the rules."""
    if not isinstance(settings.get("fault", []), list):
        return "fault is no list of tables: write fault = [{ kind = ... }]"
    for at, rule in enumerate(listed(settings, "fault")):
        if not isinstance(rule, dict):
            return f"fault {at} is no table"
        if "kind" not in rule:
            return f"fault {at}: kind is missing: it is {' or '.join(KINDS)}"
        if rule["kind"] not in KINDS:
            return f"fault {at}: kind = {shown(rule['kind'])}, and it is {' or '.join(KINDS)}"
        if fault := numbers(rule, OF_RULE, f"fault {at}: ", OF_RULE):
            return fault
        if fault := in_delay(rule, f"fault {at}: "):
            return fault
    return None


def in_lists(settings, partitions):
    """The first fault of `write_protected`, the lists and the partitions."""
    if not isinstance(settings.get("write_protected", False), bool):
        return f"write_protected = {shown(settings['write_protected'])}, and it is true or false"
    bad = settings.get("bad_sectors", [])
    if not isinstance(bad, list):
        return f"bad_sectors = {shown(bad)}, and it is a list of sectors"
    for sector in bad:
        if not is_whole(sector) or sector not in range(settings["sectors"]):
            return f"bad_sectors has {shown(sector)}, and each is a sector of the disk, 0 to {settings['sectors'] - 1}"
    if fault := in_rules(settings):
        return fault
    if not isinstance(settings.get("partition", []), list):
        return "partition is no list of tables: write [[partition]]"
    for at, partition in enumerate(partitions):
        if not isinstance(partition, dict):
            return f"partition {at} is no table"
        if fault := numbers(partition, OF_PARTITION, f"partition {at}: "):
            return fault
    return None


def fault_of(settings):
    """What is at fault, or None."""
    partitions = settings.get("partition", [])
    partitions = partitions if isinstance(partitions, list) else []
    if found := unknown(settings, partitions):
        return found
    if len(partitions) > 4:
        return f"{len(partitions)} partitions, and there are four at most"
    return numbers(settings, WHOLE, "") or in_lists(settings, partitions)


def for_script(settings):
    """The first rule that no script has: it says itself when a piece comes back."""
    for at, rule in enumerate(listed(settings, "fault")):
        if rule["kind"] in NOT_OF_SCRIPTS:
            return f"fault {at}: kind = {shown(rule['kind'])}, and it is for nbd_disk, not for scripts"
    return None


def for_clients(settings, clients):
    """What has no room for so many clients."""
    partitions = listed(settings, "partition")
    if not partitions:
        return "there is no partition 0, which clients use"
    for key, room in (("open_requests", settings.get("open_requests", 64)), ("partition 0: count", partitions[0]["count"])):
        if clients > room:
            return f"{key} = {room}, and there are {clients} clients"
    return None


def in_table(settings):
    """The first fault of the partition table."""
    extents = [(it["first"], it["first"] + it["count"]) for it in listed(settings, "partition")]
    for at, (first, end) in enumerate(extents):
        if first == end:
            return f"partition {at}: count = 0, and it has a sector at least"
        if first == 0:
            return f"partition {at}: first = 0, and the partition table stands there"
        if end > settings["sectors"]:
            return f"partition {at}: it ends before sector {end}, and sectors = {settings['sectors']}"
    for at, (first, end) in enumerate(extents):
        for other, (other_first, other_end) in enumerate(extents[:at]):
            if first < other_end and other_first < end:
                return f"partition {at}: it has sector {max(first, other_first)}, and so has partition {other}"
    return None


def at_start(settings):
    """What fails a start."""
    if 0 in listed(settings, "bad_sectors"):
        return "bad_sectors has 0, where the partition table stands"
    return "a rule of fault fails a command of the start" if listed(settings, "fault") else None


def found_in(line, path, clients):
    """What is at fault by this line, or None."""
    with open(path, "rb") as it:
        text = it.read()
    try:
        settings = tomllib.loads(text.decode())
    except UnicodeDecodeError as error:
        return f"line {text[:error.start].count(10) + 1} is not UTF-8"
    except ValueError as error:
        return str(error)
    if ": mbr: " in line:
        return in_table(settings)
    if ": start: " in line:
        return at_start(settings)
    return fault_of(settings) or (for_clients(settings, int(clients)) if clients else for_script(settings))


try:
    found = found_in(sys.argv[1], sys.argv[2], "".join(sys.argv[3:]))
except (OSError, ValueError, RecursionError):
    found = None
if found:
    print(f"{sys.argv[1].split(':')[0]}: CONFIG: {found}", file=sys.stderr)
