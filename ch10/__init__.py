"""Filters over recordings of IRIG 106-17, chapter 10, by any recorder. Python 3.7 and newer, with numpy.

`scripts/ch10.py` starts it, or `python3 -m ch10` in the folder above. The modules, each standing on those above it:

    standard     numbers in bytes, what a fault is
    data_types   every data type of chapter 11 by its name
    kinds        the kinds of entries, a row each: names, columns, tables, and which module reads them
    medium       the directory of an image, and its files
    times        civil times: those of time packets, and those that a call gives
    clocks       the one model of time: sessions of the counter, what time channels say, and the clock that gives each instant its
                 civil time
    buses        what the words of buses mean
    arrays       numpy, read where it is first asked for
    packets      the packets of a recording: headers, checksums, bodies as bytes
    segments     messages that stand in several packets
    columns, kind_..    the one form in which entries are read, columns of those of many packets; and, a module a kind, where its
                       entries stand, what they mean, and their rows
    bodies       what stands in packets' bodies: their entries
    tmats        the setup text: attributes, names of channels and buses
    survey       one pass over a recording: what each channel has, what was passed over, its clocks and setup text
    own_index, kept    what is known of a recording for a range of time: by its own index, and by the one beside it
    row          media in a row as one image
    replay       the entries of a recording in order, in parts that stand for themselves
    fields       the columns of entries
    recording    the interface for other programs: files, packets and typed entries of an input
    inputs       what a call reads and writes
    parallel, vector    lines by several processes, and lines of columns; walk finds how many entries each packet has
    traffic      what the buses carried
    pcm          minor frames of PCM, and how the setup text says that they are made
    units        where measurements stand in messages, and how they are scaled
    setup_units, measured    the same by the setup text, and the measurements of a call
    tables       the interface for programs of analysis: columns of numpy
    table, lines, picture, cuts, index, database, script, exports, values    the commands
    strict       what r10 writes: entries, packets and the index of a strict file
    pieces       a recording as packets and holes, in bounded memory
    new_file     inputs that are opened for reading alone, and files that have no name before they are whole
    mend, rescue    the commands of these names
    command      the words of a call

Over many recordings, beside the filters:

    store, store_schema, store_sqlite, store_postgres    a database by its DSN, and its tables step by step
    workers      work in several processes
    facts        what is kept of a recording: sum, verdict by the program r10, and what one pass finds
    entry_rows, load   entries as rows of tables, and the command `load`
    catalogue, find    the commands `catalogue add`, and `catalogue find` and `show`
    range_words  the words of these commands

For programs of analysis `ch10.open` is the way in (`ch10.tables`):

    import ch10
    with ch10.open('flight.ch10') as held:
        table = held.recordings[0].table('1553')    # columns: table['time'], table['rt'], table['words'] ..

For other programs `ch10.recording` is:

    from ch10.recording import recordings
    for recording in recordings(data):          # the bytes of a recording or of an image, or a map of a file
        survey = recording.survey()             # rows of channels, damage, clock, setup text
        for packet in recording.packets():      # headers and bodies
            for entry in recording.entries_of(packet):
                print(entry.count, entry.channel, entry.value)
"""
from typing import TYPE_CHECKING, Any

if TYPE_CHECKING:
    from .tables import opened as open

__all__ = ['open']


def __getattr__(name: str) -> Any:
    """`open`, which is read when it is asked for: the commands begin without it."""
    if name == 'open':
        from .tables import opened
        return opened
    raise AttributeError('module %r has no attribute %r' % (__name__, name))
