//! The kinds of channels. What depends on a kind alone stands here: a message as it is offered, by which call, and what an entry says.
use crate::Civil;
use r10_sys as sys;

/// A message as it is offered.
#[derive(Clone, Copy, Debug, PartialEq, Eq)]
pub enum Message<'a> {
    /// Bytes of a serial line (Chapter 11, UART data packets).
    Uart {
        /// A parity error was met.
        parity: bool,
        /// The subchannel.
        sub: u16,
        /// At most 65,535 bytes.
        bytes: &'a [u8],
    },
    /// A message of a MIL-STD-1553 bus (Chapter 11, format 1).
    Bus1553 {
        /// The block status word, of which the bits 0x3E38 are free.
        status: u16,
        /// The gap times word, in units of 100 ns.
        gap_times: u16,
        /// At most 36 command, status and data words, as they were on the bus.
        words: &'a [u16],
    },
    /// A word of an ARINC 429 bus (Chapter 11, format 0).
    Arinc {
        /// The bus.
        bus: u8,
        /// A format error was met.
        format: bool,
        /// A parity error was met.
        parity: bool,
        /// A bus of high speed.
        high: bool,
        /// The word of 32 bits.
        word: u32,
    },
    /// The states of discretes (Chapter 11, format 1).
    Discrete {
        /// A bit for each, as many as the channel has.
        states: u32,
    },
    /// A message of any other source (Chapter 11, message data packets).
    Message {
        /// A data error was met.
        data_error: bool,
        /// A format error was met.
        format: bool,
        /// The subchannel, below 16,384.
        sub: u16,
        /// At most 65,535 bytes.
        bytes: &'a [u8],
    },
}

/// What an entry of a file says.
#[derive(Clone, Debug, PartialEq, Eq)]
pub enum Content {
    /// Bytes of a serial line (Chapter 11, UART data packets).
    Uart {
        /// A parity error was met.
        parity: bool,
        /// The subchannel.
        sub: u16,
        /// At most 65,535 bytes.
        bytes: Vec<u8>,
    },
    /// A message of a MIL-STD-1553 bus (Chapter 11, format 1).
    Bus1553 {
        /// The block status word, of which the bits 0x3E38 are free.
        status: u16,
        /// The gap times word, in units of 100 ns.
        gap_times: u16,
        /// At most 36 command, status and data words, as they were on the bus.
        words: Vec<u16>,
    },
    /// A word of an ARINC 429 bus (Chapter 11, format 0).
    Arinc {
        /// The bus.
        bus: u8,
        /// A format error was met.
        format: bool,
        /// A parity error was met.
        parity: bool,
        /// A bus of high speed.
        high: bool,
        /// The word of 32 bits.
        word: u32,
    },
    /// The states of discretes (Chapter 11, format 1).
    Discrete {
        /// A bit for each, as many as the channel has.
        states: u32,
    },
    /// A message of any other source (Chapter 11, message data packets).
    Message {
        /// A data error was met.
        data_error: bool,
        /// A format error was met.
        format: bool,
        /// The subchannel, below 16,384.
        sub: u16,
        /// At most 65,535 bytes.
        bytes: Vec<u8>,
    },
    /// A time packet.
    Time {
        /// The civil time at the entry's count.
        civil: Civil,
    },
    /// An event.
    Event {
        /// Its number, at most 4,095.
        number: u16,
        /// How many events of this number stand earlier in the file.
        occurrence: u16,
    },
}

/// Offers a message to a recorder, by the call of its kind.
#[inline]
pub(crate) fn offer(raw: &mut sys::r10, channel: u16, count: u64, message: Message) -> u32 {
    use sys::*;
    // SAFETY: the handle is borrowed by this call alone, and slices are read in it, by their lengths.
    unsafe {
        match message {
            Message::Uart { parity, sub, bytes } => r10_offer_uart(raw, channel, count, parity, sub, bytes.as_ptr(), bytes.len()),
            Message::Bus1553 { status, gap_times, words } => r10_offer_1553(raw, channel, count, status, gap_times, words.as_ptr(), words.len()),
            Message::Arinc { bus, format, parity, high, word } => r10_offer_arinc(raw, channel, count, bus, format, parity, high, word),
            Message::Discrete { states } => r10_offer_discrete(raw, channel, count, states),
            Message::Message { data_error, format, sub, bytes } => r10_offer_message(raw, channel, count, data_error, format, sub, bytes.as_ptr(), bytes.len()),
        }
    }
}

/// Offers a message at a port, by the call of its kind.
#[inline]
pub(crate) fn offer_at(raw: &mut sys::r10_port, count: u64, message: Message) -> u32 {
    use sys::*;
    // SAFETY: the handle is borrowed by this call alone, and slices are read in it, by their lengths.
    unsafe {
        match message {
            Message::Uart { parity, sub, bytes } => r10_port_uart(raw, count, parity, sub, bytes.as_ptr(), bytes.len()),
            Message::Bus1553 { status, gap_times, words } => r10_port_1553(raw, count, status, gap_times, words.as_ptr(), words.len()),
            Message::Arinc { bus, format, parity, high, word } => r10_port_arinc(raw, count, bus, format, parity, high, word),
            Message::Discrete { states } => r10_port_discrete(raw, count, states),
            Message::Message { data_error, format, sub, bytes } => r10_port_message(raw, count, data_error, format, sub, bytes.as_ptr(), bytes.len()),
        }
    }
}

/// How many bytes an entry has: those of a bus have words instead.
#[inline]
pub(crate) fn bytes_of(entry: &sys::r10_entry) -> usize {
    match entry.kind {
        sys::R10_UART | sys::R10_MESSAGE => entry.length,
        _ => 0,
    }
}

/// What an entry says, with the bytes or the words that were lent for it.
#[inline]
pub(crate) fn content(e: &sys::r10_entry, bytes: &[u8], words: &[u16]) -> Content {
    let bytes = || bytes[..e.length].to_vec();
    match e.kind {
        sys::R10_UART => Content::Uart { parity: e.parity, sub: e.sub, bytes: bytes() },
        sys::R10_1553 => Content::Bus1553 { status: e.status, gap_times: e.gap_times, words: words[..e.length].to_vec() },
        sys::R10_ARINC => Content::Arinc { bus: e.bus, format: e.format, parity: e.parity, high: e.high, word: e.word },
        sys::R10_DISCRETE => Content::Discrete { states: e.word },
        sys::R10_MESSAGE => Content::Message { data_error: e.data_error, format: e.format, sub: e.sub, bytes: bytes() },
        sys::R10_TIME => {
            let civil = Civil { year: e.year, month: e.month, day: e.day, hour: e.hour, minute: e.minute, second: e.second, centi: e.centi };
            Content::Time { civil }
        }
        _ => Content::Event { number: e.number, occurrence: e.occurrence },
    }
}
