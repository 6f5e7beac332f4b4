"""The kinds of entries, a row each: their names, columns and tables, and the modules that read them.

A row has what is known without reading an entry, so that a call which reads none begins sooner. A kind's entries are read by its
module, as columns of the entries of many packets (`ch10.columns`), by functions of these names. A body is a packet's bytes after
its headers, without filler and checksum; it begins with its word, of 32 bits. Counts are in units of 100 ns.

    find(batch)              the places of the entries of some bodies, how many each has, and which have less than they say
    count(batch, at, of)     the counts of the entries at these places, each of a packet by its number in the batch
    raw(block)               of entries, the values of their keys, as groups by the keys' names
    meant(block, reader)     their columns with what they mean, as groups in the columns' order; `reader` is a `ch10.fields.Reader`
    own(block)               the columns of their table in the same way; several that stand together are one group
    number_in(data, at, size, word)    how many entries a body of a strict recording has, of so many bytes from a place on
    LESS                     what is said of a body that has less than its entries

and, where the kind asks for it, by these:

    is_other_form(word, size)    whether the word of a body of so many bytes selects a form that is not read here
    last_count(body)             the count of the last entry, where it is found sooner than all of them
    last_state(body)             what has to be known of a packet before the channel's next one; None where it has no entry
"""
from __future__ import annotations

from importlib import import_module
from typing import Dict, Optional, Sequence

from .standard import EVENT, TIME, Value

BUS, DISCRETE, MESSAGE, ARINC, UART, CAN = 0x19, 0x29, 0x30, 0x38, 0x50, 0x78
WEAPONS, FIREWIRE, FIREWIRE_PHY = 0x1A, 0x58, 0x59
WHOLE, REAL, TRUTH, TEXT, VALUE = 'INTEGER', 'REAL', 'BOOLEAN', 'TEXT', 'value'  # VALUE: a text, what the message itself is
Columns = Dict[str, str]  # of each its form by its name


class Kind:
    """A kind of entries.

    .type      the data type of its packets (chapter 11)
    .name      what csv, json and a script call it
    .module    what reads it, a module of this package
    .keys      the values of an entry as they stand in its packet, which are those of `r10 play`, each with its form
    .columns   of csv, json and sqlite, each with its form; those that other kinds have too in the order of `ch10.fields.SHARED`
    .own       the columns of its table in a database, each with its type; those that may be NULL or vary in length at the end
    .together  how many of these stand together, each such group at the end of a row
    .is_later  whether csv of all kinds has those of its columns alone that were there before it
    .step      the step that makes this table (`ch10.store_schema`): for a kind that is new one of its own, after all others
    .tmats     how a setup text (chapter 9) describes its channels, or None: `data_type`, the channel data type; `format_name`, the
               attribute of the format; `format`, the one that r10 writes; `group`, of what a channel carries, or None: S, messages,
               or B, buses, with their `bus_type`; .setup, the same, with nothing in it where there is none
    """

    def __init__(self, data_type: int, name: str, module: str, keys: Columns, columns: Columns, own: Columns,
                 together: Sequence[int] = (), step: int = 2, tmats: Optional[Dict[str, object]] = None,
                 is_later: bool = False) -> None:
        self.type, self.name, self.module, self.together, self.step, self.tmats = data_type, name, module, together, step, tmats
        self.is_later, self.setup = is_later, tmats or {}
        self.keys, self.columns, self.own = tuple(keys.items()), tuple(columns.items()), tuple(own.items())
        self.column_names = tuple(columns)
        self.table = 'entry_' + name  # in a database of many recordings
        self.word = name if name.isalpha() else 'bus' + name  # its table in a database of one
        self.has_buses = keys.get('bus') == WHOLE  # whether each entry says of which bus it is


KINDS = (
    Kind(BUS, '1553', 'kind_1553',
         keys={'status': TEXT, 'gap': TEXT, 'words': VALUE},
         columns={'value': TEXT, 'bus': TEXT, 'bus_name': TEXT, 'errors': TEXT, 'rt': WHOLE, 'tr': TEXT, 'sa': WHOLE,
                  'wc': WHOLE, 'mode': WHOLE, 'rt2': WHOLE, 'sa2': WHOLE, 'status1': TEXT, 'status2': TEXT,
                  'flags': TEXT, 'gap1': REAL, 'gap2': REAL},
         own={'rt': 'SMALLINT', 'tr': '{text}', 'sa': 'SMALLINT', 'wc': 'SMALLINT', 'mode': 'SMALLINT',
              'rt2': 'SMALLINT', 'sa2': 'SMALLINT', 'status1': 'INTEGER', 'status2': 'INTEGER', 'bus': '{text}',
              'errors': '{text}', 'block_status': 'INTEGER', 'gap1': 'REAL', 'gap2': 'REAL', 'words': '{bytes}'},
         together=(5, 2, 2, 5, 1), tmats=dict(data_type='1553IN', format_name='BTF', format=1, group='B', bus_type='1553')),
    Kind(ARINC, 'arinc', 'kind_arinc',
         keys={'bus': WHOLE, 'format': TRUTH, 'parity': TRUTH, 'high': TRUTH, 'data': VALUE},
         columns={'value': TEXT, 'bus': WHOLE, 'bus_name': TEXT, 'errors': TEXT, 'label': TEXT, 'sdi': WHOLE,
                  'data': WHOLE, 'ssm': WHOLE, 'parity': WHOLE, 'high': TRUTH},
         own={'word': 'BIGINT', 'data': 'INTEGER', 'bus': 'SMALLINT', 'sdi': 'SMALLINT', 'ssm': 'SMALLINT',
              'parity': 'SMALLINT', 'high': 'BOOLEAN', 'label': '{text}3', 'errors': '{text}'},
         together=(1,), tmats=dict(data_type='429IN', format_name='ABTF', format=0, group='B', bus_type='A429')),
    Kind(UART, 'uart', 'kind_uart',
         keys={'parity': TRUTH, 'sub': WHOLE, 'bytes': VALUE},
         columns={'value': TEXT, 'text': TEXT, 'sub': WHOLE, 'errors': TEXT},
         own={'sub': 'SMALLINT', 'errors': '{text}', 'value': '{bytes}'},
         together=(1, 1), tmats=dict(data_type='UARTIN', format_name='UTF', format=0, group='S')),
    Kind(MESSAGE, 'message', 'kind_message',
         keys={'data_error': TRUTH, 'format': TRUTH, 'sub': WHOLE, 'bytes': VALUE},
         columns={'value': TEXT, 'text': TEXT, 'sub': WHOLE, 'errors': TEXT},
         own={'sub': 'SMALLINT', 'errors': '{text}', 'value': '{bytes}'},
         together=(1, 1), tmats=dict(data_type='MSGIN', format_name='MTF', format=0, group='S')),
    Kind(DISCRETE, 'discrete', 'kind_discrete',
         keys={'states': VALUE},
         columns={'value': TEXT, 'bits': TEXT, 'changed': TEXT},
         own={'states': 'BIGINT', 'changed': 'BIGINT'},
         tmats=dict(data_type='DISIN', format_name='DTF', format=1, group=None)),
    Kind(TIME, 'time', 'kind_time',
         keys={'civil': VALUE},
         columns={'value': TEXT},
         own={'value': '{text}'},
         together=(1,), tmats=dict(data_type='TIMEIN', format_name='TTF', format=1, group=None)),
    Kind(EVENT, 'event', 'kind_event',
         keys={'number': WHOLE, 'occurrence': WHOLE},
         columns={'number': WHOLE, 'occurrence': WHOLE},
         own={'number': 'SMALLINT', 'occurrence': 'INTEGER'}),
    Kind(CAN, 'can', 'kind_can',
         keys={'data_error': TRUTH, 'format': TRUTH, 'sub': WHOLE, 'bytes': VALUE},
         columns={'value': TEXT, 'sub': WHOLE, 'errors': TEXT, 'id': WHOLE, 'extended': TRUTH, 'remote': TRUTH},
         own={'sub': 'SMALLINT', 'id': 'INTEGER', 'extended': 'BOOLEAN', 'remote': 'BOOLEAN', 'errors': '{text}',
              'value': '{bytes}'},
         together=(1, 1), step=5, is_later=True),
    Kind(WEAPONS, '16pp194', 'kind_16pp194',
         keys={'status': TEXT, 'words': VALUE},
         columns={'value': TEXT, 'errors': TEXT, 'status': TEXT},
         own={'status': 'INTEGER', 'errors': '{text}', 'words': '{bytes}'},
         together=(1, 1), step=6, is_later=True),
    Kind(FIREWIRE, '1394', 'kind_1394',
         keys={'form': WHOLE, 'sync': WHOLE, 'bytes': VALUE},
         columns={'value': TEXT, 'event': TEXT, 'body': WHOLE, 'sync': WHOLE},
         own={'body': 'SMALLINT', 'sync': 'SMALLINT', 'event': '{text}', 'value': '{bytes}'},
         together=(1, 1), step=7, is_later=True),
    Kind(FIREWIRE_PHY, '1394phy', 'kind_1394phy',
         keys={'status': TEXT, 'speed': WHOLE, 'bytes': VALUE},
         columns={'value': TEXT, 'errors': TEXT, 'status': TEXT, 'speed': WHOLE},
         own={'status': 'SMALLINT', 'speed': 'SMALLINT', 'errors': '{text}', 'value': '{bytes}'},
         together=(1, 1), step=8, is_later=True),
)
BY_NAME = {kind.name: kind for kind in KINDS}


def by_type(name: str) -> Dict[int, Value]:
    """By data type what has this name in the module of the kind, of all kinds whose module has it."""
    modules = {kind.type: import_module('.' + kind.module, __package__) for kind in KINDS}
    return {data_type: getattr(module, name) for data_type, module in modules.items() if hasattr(module, name)}
