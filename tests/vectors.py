"""The vectors of the test programs: standard input, and the text that the model
expects on standard output.

Standard input is a list of cases. A case is an op (1 byte), a room (4 bytes, low
byte first: how long the lent output is; over 65,536 is taken as 65,536), a length
(the same way, at most 65,536; the programs take more as 65,536, and no case has more)
and so many bytes, the payload. The program fills the output with A5 before each call
and prints a line for each case:

    op=N no=N at=N out=HEX kept=yes

no and at are the refusal's number and offset, both 0 where it is accepted; out
is what the call reports as written; kept is whether every other byte is still
A5. Ops 21 and 25 add blocks=N dropped=yes or no, ops 30, 32 and 34 mended=N joined=N (0 and 0 where refused;
joined is the record's second byte), ops 53 and 63 sheet=1 or sheet=2 where that sheet is refused with 20 or 21, and nothing otherwise.
An op that isn't known, or a payload that is too short for it: op=N unknown. A case that the end cuts short: short=N.

    op  program      payload                                  out
    1   try_octet    a byte                                   its nibble, or 16
    2   try_octet    a byte                                   its image
    3   try_octet    a byte                                   it turned
    4   try_octet    a byte                                   its fault place
    5   try_octet    a byte                                   its nibble and whether it was mended (1) or is an
                                                              image (0); 16 and 0 where it can't be decoded
    10  try_pes      a PES packet                             records of 44 bytes
    11  try_pes      data_identifier, records                 a PES packet
    20  try_guide    magazine, page, stream, application      nothing; a fresh reader
    21  try_guide    one packet for that reader               the blocks' records
    22  try_guide    magazine, page, stream, first index,     packets
                     packets a page (0: no number), records
    24  try_guide    magazine, page, first stream, second,    nothing; a fresh reader of two streams
                     application
    25  try_guide    one packet for that reader               the blocks' records, each behind its stream
    23  try_guide    two packets, each half of it              40 bytes of one
    30  try_table    application, a record                    a table form
    31  try_table    application, a table form                a record
    32  try_menu     application, a record                    an NI form
    33  try_menu     application, an NI form                  a record
    34  try_information  application, a record                an AI form
    35  try_information  application, an AI form              a record
    40  try_listing  how many bytes were mended (2 bytes,     the desk's lines
                     low first), a record's second byte
                     (not judged), a table form
    41  try_menu     application, a block number (2 bytes,    the listing
                     low first), records
    42  try_information  application, records                 the verdict
    50  try_sheet    a sheet                                  the sheet, written again
    51  try_sheet    stamp (4 bytes, low first), the sheet's  the sheet with the table added
                     length (4, low first), it, a table form
    52  try_sheet    the first sheet's length (4, low first), the two joined
                     it, the second
    53  try_sheet    as op 52                                 what changed from the first to the second
    54  try_sheet    a sheet of the old form                  the sheet, moved up to the new form
    55  try_sheet    a sheet of the new form                  the sheet, moved down to the old form
    56  try_sheet    network, kind, block number (2, low      the sheet without the entry of that key
                     first), a sheet
    60, 62, 63, 66   as 50, 52, 53 and 56, which are of the   the same, of the new form
                     old form
    61  try_sheet    as op 51, with the table's count of      the sheet with the table added
                     mended bytes (2, low first) between
                     the sheet and the table form
    70  try_dvb      a table form                             the descriptor
    71  try_dvb      a descriptor                             how many subtitles, how many passed over, the subtitles
"""

from cases import dvb, guide, information, listing, menu, octet, pes, sheet, table, unpes
from cases.form import Dice
from model import unpes as model_unpes

CASES = {"octet": octet, "pes": pes, "guide": guide, "table": table, "listing": listing, "menu": menu, "information": information, "sheet": sheet, "dvb": dvb}


def make(name, seed=1, size=1):
    """stdin and stdout of program try_NAME, as bytes."""
    script = CASES[name].script_of(Dice(seed), size)
    return bytes(script.stdin), script.stdout().encode()


def make_unpes(seed=1, size=1):
    """stdin and stdout of program unpes, and its last line on standard error."""
    stdin = unpes.stream_of(Dice(seed), size)
    return (stdin, *model_unpes.run(stdin))
