"""Random scripts: updates and calls of a few subscribers. A record is a text, or an update that has one."""

from wenqolo import updates
from wenqolo.drawn.updates import draw_update

GREATEST_POINT, GREATEST_HANDLING = 255, 2**32 - 1


def fitting(items):
    """The items that a script can hold, with handlings that it can hold."""
    kept = [item for item in items if 0 <= item.point <= GREATEST_POINT]
    for item in kept:
        if isinstance(item, updates.Row):
            item.handling = min(item.handling, GREATEST_HANDLING)
    return kept


def fitted(update):
    """The update, whose lists have only items that a script can hold."""
    if isinstance(update, updates.Insert):
        lists = {name: fitting(items) for name, items in update.lists.items()}
        update.lists = {name: items for name, items in lists.items() if items}
    return update


def draw_update_of(source, imsi):
    """An update of this subscriber, whose lists have only items that a script can hold."""
    update = draw_update(source)
    update.imsi = imsi
    return fitted(update)


def draw_call(source, imsi, addresses):
    """A call whose destination often begins with a listed number."""
    basic = f"{source.choice('ttb')}{source.choice((0x10, 0x11, 0x12, 0x62, source.randrange(256))):02x}"
    point, cause = source.choice((2, 2, 4, 12, 13, 14)), source.randrange(128)
    destination = source.choice(addresses).hex() + source.choice(("", "21", "f3"))
    fields = ["call", point, imsi, basic]
    if point in updates.O_POINTS:
        fields += [destination, source.choice("fn")]
    if point not in (2, 12):
        fields.append(cause)
    return ",".join(map(str, fields))


def addresses_of(update):
    """The numbers that the criteria of an update list."""
    lists = update.lists if isinstance(update, updates.Insert) else {}
    entries = [entry for name in ("oc", "tc") for entry in lists.get(name, ())]
    return [listed for entry in entries if entry.number for listed in entry.number.numbers or ()]


def draw_records(source, imsis, count):
    """So many records of these subscribers, and some publications before calls."""
    addresses, records = [b"\x91\x21\x43"], []
    for _ in range(count):
        imsi, chance = source.choice(imsis), source.random()
        if chance < 0.4:
            records.append(draw_update_of(source, imsi))
            addresses += addresses_of(records[-1])
        elif chance < 0.5:
            records.append(source.choice((f"register,{imsi}", "publish", "publish")))
        else:
            records.append(draw_call(source, imsi, addresses))
            if source.random() < 0.3:
                records.insert(-1, "publish")
    return records


def text_of(record):
    """The text of a record, with all items of an Insert, those that are ignored too, and each handling as it came."""
    if isinstance(record, str):
        return record
    if not isinstance(record, updates.Insert):
        return updates.record_of(record)
    texts = [updates.item_text(name, item) for name, items in record.lists.items() for item in items]
    return ",".join(["insert", record.imsi, *texts])
