"""Application Information (EN 300 707, clause 11.2, annexes A.3 and A.4), whether a list of blocks is a lawful broadcast (annex D), and the program
`lawful`."""

from typing import NamedTuple

from . import Refused, need
from .guide import HEAD, head_in, head_of, records_in, size_of
from .listing import DESK
from .menu import MOST_SIZE, NI, Form, read_menu, sound, strings_in, summed, told, with_parity
from .octet import UNDECODABLE, decode, image
from .streams import blocks
from .table import COMMON, FIRST, LI, TI, Bits, nibbles_laid, read_block, table_of, whole_bytes

AI, PI, OI, MI, UI, CI, HI = 0x01, 0x02, 0x04, 0x05, 0x06, 0x3E, 0x3F       # datatype_id, clause 11.12.3; LI, NI and TI stand with their blocks

# Table 11: names and widths in its order. What is spare is written 0, read as anything, and no part of the form.
SPARE = "spare"
GENERAL = COMMON[:4]                # checksum, control_block_size, datatype_id, CA_mode
OPENING = (("copyright", 1), (SPARE, 1), ("epg_version_number", 6), ("epg_version_number_swo", 6),
           ("no_of_navigation_info", 16), ("no_of_osd_info", 16), ("no_of_message_info", 16),
           ("no_of_navigation_info_swo", 16), ("no_of_osd_info_swo", 16), ("no_of_message_info_swo", 16),
           ("no_of_networks", 8), ("this_operator_network_no", 8), ("service_name_length", 5), ("no_of_updates", 1), (SPARE, 2))
NETWORK = (("cni", 16), ("LTO_magnitude", 7), ("LTO_sign", 1), ("no_of_days", 5), ("netwop_name_len", 5), ("default_alphabet", 7),
           ("prog_start_no", 16), ("prog_stop_no", 16), ("prog_stop_no_swo", 16),
           ("network_version_no", 6), ("no_of_LI_structures", 1), ("no_of_TI_structures", 2), ("network_add_info", 2))


class Named(NamedTuple):
    """The values of a row by their names, the name's length among them, and the codes of the name that goes with them."""
    values: dict
    name: bytes


class Information(NamedTuple):
    service: Named                  # OPENING
    networks: list                  # NETWORK, each

    def named(self):
        """With its row, what has a name, in the order in which names are sent and stand in the form."""
        return [(OPENING, self.service), *((NETWORK, network) for network in self.networks)]


def fields_of(row, values):
    return [(width, values.get(name, 0)) for name, width in row]


# --- the block ------------------------------------------------------------------------

def specific_fields(information):
    """The fields behind CA_mode, without fill."""
    return [field for row, named in information.named() for field in fields_of(row, named.values)]


def control_size(information):
    return whole_bytes(sum(width for _, width in GENERAL) + sum(width for width, _ in specific_fields(information)))


def codes_of(information):
    """All codes in the order in which they are sent."""
    return b"".join(named.name for _, named in information.named())


def block_size(information):
    return 2 * control_size(information) + len(codes_of(information))


# --- the AI form ----------------------------------------------------------------------

def in_form(row):
    """The values of a row that stand in the form, each with its bytes there."""
    return [(name, 2 if width == 16 else 1) for name, width in row if name != SPARE]


def form_of(information):
    form = bytes([AI])
    for row, named in information.named():
        form += b"".join(named.values[name].to_bytes(size, "little") for name, size in in_form(row)) + named.name
    return form


LEAST = 1 + sum(size for _, size in in_form(OPENING))


def information_of(form):
    """An AI form's values: 13 (under twenty bytes), 15 (the kind), 13 (its length isn't that of its counts), 15 (values, codes, size)."""
    need(len(form) >= LEAST, 13)
    rest = Form(form)
    need(rest.number(1) == AI, 15)

    def named(row, length):
        values = {name: rest.number(size) for name, size in in_form(row)}
        return Named(values, rest.take(values[length]))

    service = named(OPENING, "service_name_length")
    information = Information(service, [named(NETWORK, "netwop_name_len") for _ in range(service.values["no_of_networks"])])
    need(rest.rest == b"", 13)
    need(writable(information), 15)
    return information


def writable(information):
    """Every value fits its field, codes have seven bits, and the block has a size."""
    fit = all(value < 1 << width for width, value in specific_fields(information))
    return fit and all(code <= 0x7F for code in codes_of(information)) and block_size(information) <= MOST_SIZE


# --- reading and writing --------------------------------------------------------------

def information_in(nibbles, codes):
    """What control data and codes say; names are short where there are too few codes."""
    bits = Bits(nibbles)
    bits.fields(GENERAL)

    def values(row):
        taken = bits.fields(row)
        return {name: taken[name] for name, _ in in_form(row)}

    opening = values(OPENING)
    networks = [values(NETWORK) for _ in range(opening["no_of_networks"])]
    lengths = [opening["service_name_length"], *(network["netwop_name_len"] for network in networks)]
    names = strings_in(codes, lengths)
    return Information(Named(opening, names[0]), list(map(Named, networks, names[1:]))), sum(lengths)


def read_information(application, record, room=65536):
    """A record's AI form, how many bytes of its start, header and control data were mended, and whether it is joined."""
    block = sound(application, record, AI)
    information, codes = information_in(block.nibbles, block.codes)
    need(control_size(information) == block.control_size and 2 * block.control_size + codes == block.size, 14)
    return block.read(form_of(information), room)


def control_nibbles(information):
    general = dict(control_block_size=control_size(information), datatype_id=AI)
    return nibbles_laid(fields_of(GENERAL, general) + specific_fields(information))


def write_information(application, form, room=65536):
    need(application <= 31, 16)
    information = information_of(form)
    need(HEAD + block_size(information) <= room, 1)
    return summed(application, control_nibbles(information), bytes(map(with_parity, codes_of(information))))


# --- what counts ----------------------------------------------------------------------

NOT = 64                            # in place of a datatype, which has six bits
READ = {AI: read_information, NI: read_menu, LI: read_block, TI: read_block}


def kind_of(application, record):
    """A block's datatype, where its application is ours, its size at least 8 and its first eight bytes decode. No more is judged."""
    size = size_of(head_in(record))
    if len(record) != HEAD + size or head_in(record) != head_of(application, size) or size < FIRST:
        return NOT
    nibbles = [decode(byte) for byte in record[HEAD:HEAD + FIRST]]
    return NOT if UNDECODABLE in nibbles else Bits(nibbles).fields(COMMON)["datatype_id"]


class Counted(NamedTuple):
    kind: int
    form: bytes                     # of a kind that is read


def counted(application, record):
    """What a record counts as; of a kind that we read it has to be accepted."""
    kind = kind_of(application, record)
    try:
        return Counted(kind, READ[kind](application, record).form if kind in READ else b"")
    except Refused:
        return Counted(NOT, b"")


def counts(application, record):
    """The datatype that a record counts as, or 64."""
    return counted(application, record).kind


MENDED = bytes(byte if decode(byte) == UNDECODABLE else image(decode(byte)) for byte in range(256))


def block_of(record):
    """A record without what the reader says of its way, each byte that decodes as the image of its nibble."""
    return record[:2] + record[HEAD:].translate(MENDED)


def same(first, second):
    """Whether two records are one block: equal 16 bits, and each raw byte equal to the other's, or both decoding to one nibble."""
    return block_of(first) == block_of(second)


# --- annex D --------------------------------------------------------------------------

# A rule says whether it is met by the networks of a kind's blocks, one for each block, and this channel.

def any_number(networks, channel):
    return True


def exactly(number):
    return lambda networks, channel: len(networks) == number


def at_most(number):
    return lambda networks, channel: len(networks) <= number


def at_most_for_each(number, this_channel):
    return lambda networks, channel: all(networks.count(one) <= (this_channel if one == channel else number) for one in networks)


class Row(NamedTuple):
    name: str
    kind: int
    met: object


GUIDES = {"EPG": (                  # table D.1
    Row("AI", AI, exactly(1)), Row("PI", PI, any_number), Row("NI", NI, any_number), Row("OI", OI, any_number), Row("MI", MI, at_most(255)),
    Row("UI", UI, at_most(1)), Row("LI", LI, at_most_for_each(1, 2)), Row("TI", TI, at_most_for_each(1, 2)),
    Row("CI", CI, any_number), Row("HI", HI, any_number))}


def broken(rows, came):
    """The name of the first rule that what counts doesn't meet, if there is one."""
    channel = next(information_of(one.form).service.values["this_operator_network_no"] for one in came if one.kind == AI)
    for row in rows:
        networks = [table_of(one.form).network if one.kind in (LI, TI) else None for one in came if one.kind == row.kind]
        if not row.met(networks, channel):
            return row.name
    return None


def verdict(application, records):
    """Of each kind of guide, the name of the rule that these records break; 24 where no Application Information counts."""
    came = [counted(application, record) for record in records]
    need(any(one.kind == AI for one in came), 24)
    return {guide: broken(rows, came) for guide, rows in GUIDES.items()}


def lines_of(verdicts):
    for guide, rule in verdicts.items():
        yield f"guide={guide}"
        yield "lawful=no" if rule else "lawful=yes"
        if rule:
            yield f"rule={rule}"


def lawful(application, records, room=65536):
    """The verdict's text: 16, 13, 24, 1."""
    need(application <= 31, 16)
    text = "".join(line + "\n" for line in lines_of(verdict(application, records_in(records)))).encode()
    need(len(text) <= room, 1)
    return text


# --- the program ----------------------------------------------------------------------

STORE = 1 << 21                     # the bytes of the records that are kept
FAILING = {row.kind: row.name for rows in GUIDES.values() for row in rows if row.met is not any_number}


class TooMany(Exception):
    """More blocks than fit."""


def kept(application, records):
    """Of each kind that can fail, the blocks that count, once (`same`): the first record of each."""
    came, used = {kind: {} for kind in FAILING}, 0
    for record in records:
        kind = counts(application, record)
        if kind in came and block_of(record) not in came[kind]:
            came[kind][block_of(record)] = record
            used += len(record)
        if used > STORE:
            raise TooMany
    return {kind: list(those.values()) for kind, those in came.items()}


class Weighed(NamedTuple):
    verdicts: dict                  # as of `verdict`
    counts: dict                    # of each kind that can fail, by its name
    failure: str                    # why there is neither, if there isn't


NO_INFORMATION, TOO_MANY = "no Application Information", "too many blocks"


def weighed(application, records):
    """The verdict over the records of a capture, and how many blocks count of each kind that can fail."""
    try:
        came = kept(application, records)
        verdicts = verdict(application, [record for those in came.values() for record in those])
    except TooMany:
        return Weighed({}, {}, TOO_MANY)
    except Refused:
        return Weighed({}, {}, NO_INFORMATION)
    return Weighed(verdicts, {FAILING[kind]: len(those) for kind, those in came.items()}, "")


def said_of(result, name=None):
    """What goes to standard output and to standard error for a capture; where a name is given, it was read by that. Of a failure that isn't a
    verdict the line's beginning."""
    title = b"" if name is None else b"file=" + told(name) + b"\n"
    says = b"lawful: " + (b"standard input" if name is None else told(name)) + b": "
    if result.failure:
        return b"", says
    counts_line = " ".join(f"{rule}={count}" for rule, count in result.counts.items())
    text = "".join(line + "\n" for line in (*lines_of(result.verdicts), counts_line)).encode()
    return title + text, b"".join(says + f"not lawful, by rule {rule}\n".encode() for rule in result.verdicts.values() if rule)


def told_of(application, records, name=None):
    """The same of the records that came."""
    return said_of(weighed(application, records), name)


def program(data, setting=DESK, name=None):
    """The same of a capture, of one stream or of two."""
    return told_of(setting.application, [record for _, record in blocks(setting, data)], name)
