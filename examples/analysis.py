#!/usr/bin/env python3
"""An analysis of one recording, cell by cell as in a notebook: what it has, which messages its MIL-STD-1553 buses carried, how
regular they were, and what was lost.

    examples/analysis.py flight.ch10

It takes pandas, and the package ch10: docs/RANGE.md says how that is installed. In this repository PYTHONPATH=. does. Editors that
know notebooks show what follows a line `# %%` as a cell.
"""
import sys

import numpy
import pandas

import ch10

# %% The recording and its channels

held = ch10.open(sys.argv[1])
recording = held.recordings[0]
channels = pandas.DataFrame(recording.channels)
print(channels[['number', 'type', 'name', 'packets', 'entries', 'losses', 'lost']].to_string(index=False))

# %% The messages of all buses, a row for each

table = recording.table('1553')
messages = table.frame()
messages['wrong'] = messages['errors'] != ''
print('\n%d messages from %s to %s' % (len(messages), messages['time'].min(), messages['time'].max()))

# %% By terminal and subaddress: how many, how many of them wrong, and the time between one and the next

messages = messages.sort_values(['channel', 'count'], kind='stable')
address = ['channel', 'rt', 'sa']
messages['gap'] = messages.groupby(address)['time'].diff() / numpy.timedelta64(1, 'ms')
by_address = messages.groupby(address).agg(messages=('count', 'size'), wrong=('wrong', 'sum'), median_gap_ms=('gap', 'median'))
by_address = by_address.sort_values('messages', ascending=False).reset_index()
print('\n%s' % by_address.head(10).to_string(index=False))

# %% What was lost, second by second; -1 stands where the recording does not tell how many

lost = messages[messages['lost'] != 0].assign(second=lambda rows: rows['time'].dt.floor('s'))
print('\n%d gaps in the messages' % len(lost))
print(lost.groupby(['channel', 'second'])['lost'].agg(gaps='size', messages='sum').reset_index().head(10).to_string(index=False))

# %% The first words of each message as columns of numbers, for a look at how they vary

words = pandas.DataFrame(table.words(4), columns=['word 0', 'word 1', 'word 2', 'word 3'])
print('\n%s' % words.describe().loc[['count', 'min', 'max']].to_string())

held.close()
