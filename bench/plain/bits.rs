//! Bits of items, and items that are read from them.

use crate::sent::Sent;
use crate::values::*;
use crate::variables::*;

/// Bits of bytes, and how many were read. There are bytes after an item too, so a run may reach past its end;
/// whether what was taken lies inside is checked at the end of each packet and of the item.
pub struct Bits<'a> {
    bytes: &'a [u8],
    pub at: usize,
}

/// The next 57 bits at least, the first on top, and how many of them were taken.
pub struct Word<'r, 'a> {
    bits: &'r mut Bits<'a>,
    word: u64,
    taken: usize,
}

/// Bits among others: the bytes that have them, and one more, and how many are before the first of them.
pub struct Span<'a> {
    bytes: &'a [u8],
    shift: usize,
    len: usize,
}

/// The bits of a telegram's header, and of a marker.
const HEADER: usize = 50;
const MARKER: usize = (NID_PACKET::WIDTH + NID_VBCMK::WIDTH) as usize;

impl<'a> Source for Bits<'a> {
    type Run<'r>
        = Word<'r, 'a>
    where
        'a: 'r;

    #[inline(always)]
    fn run(&mut self) -> Option<Word<'_, 'a>> {
        let start = self.at / 8;
        let bytes = self.bytes.get(start..start + 8)?;
        let word = u64::from_be_bytes(bytes.try_into().unwrap());
        Some(Word { word: word << (self.at % 8), taken: 0, bits: self })
    }

    #[inline(always)]
    fn radio(&mut self) -> Option<u64> {
        let upper: u32 = self.take(NID_OPERATIONAL)?;
        let lower: u32 = self.take(NID_OPERATIONAL)?;
        Some(u64::from(upper) << 32 | u64::from(lower))
    }

    fn text(&mut self, len: usize) -> Option<Vec<u8>> {
        let shift = self.at % 8;
        let start = self.at / 8;
        let bytes = self.bytes.get(start..start + len + 1)?;
        self.at += 8 * len;
        Some(bytes.windows(2).map(|pair| (u16::from_be_bytes([pair[0], pair[1]]) >> (8 - shift)) as u8).collect())
    }

    #[inline(always)]
    fn kept(&mut self, len: usize) -> Option<Kept> {
        let shift = self.at % 8;
        let count = len.div_ceil(64);
        let mut rest = self.bytes.get(self.at / 8..)?;
        let mut words = Vec::with_capacity(count);
        for _ in 0..count {
            let (word, after) = rest.split_first_chunk()?;
            let next = u64::from(*after.first()?);
            words.push(u64::from_be_bytes(*word) << shift | next >> (8 - shift));
            rest = after;
        }
        if len % 64 > 0 {
            if let Some(last) = words.last_mut() {
                *last &= u64::MAX << (64 - len % 64);
            }
        }
        self.at += len;
        Some(Kept { words, len })
    }
}

impl Run for Word<'_, '_> {
    #[inline(always)]
    fn take<V: Variable, N: Number>(&mut self, _: V) -> Option<N> {
        let number = self.word >> (64 - V::WIDTH);
        self.word <<= V::WIDTH % 64;
        self.taken += V::WIDTH as usize;
        V::admits(number).then(|| N::from_number(number))
    }

    #[inline(always)]
    fn pass(self) {
        debug_assert!(self.taken <= 56);
        self.bits.at += self.taken;
    }
}

impl Word<'_, '_> {
    /// The frame of a packet, of which NID_PACKET was taken, and where the packet ends: that must not be after `end`.
    #[inline(always)]
    pub fn frame(mut self, way: Way, nid: u8, end: usize) -> Option<(Frame, usize)> {
        let start = self.bits.at;
        let dir = if way == Way::ToTrain { Some(self.take(Q_DIR)?) } else { None };
        let length: u16 = self.take(L_PACKET)?;
        let after = start + usize::from(length);
        let is_inside = start + self.taken <= after && after <= end;
        self.pass();
        is_inside.then_some((Frame { nid, dir, length: Some(length) }, after))
    }

    /// What comes after the length of a typed message.
    #[inline(always)]
    pub fn start(mut self, way: Way, nid: u8) -> Option<Start> {
        let t_train = self.take(T_TRAIN)?;
        self.bits.at += self.taken;
        Some(Start { t_train, head: Head::read(self.bits, way)?, own: Own::read(self.bits, way, nid)? })
    }
}

impl<'a> Bits<'a> {
    /// Those that an item begins with, after which there are some more bytes.
    #[inline(always)]
    pub fn new(bytes: &'a [u8]) -> Bits<'a> {
        Bits { bytes, at: 0 }
    }

    /// The next bits, as many as are said.
    #[inline(always)]
    pub fn span(&mut self, len: usize) -> Option<Span<'a>> {
        let bytes = self.bytes.get(self.at / 8..)?.get(..8 * len.div_ceil(64) + 1)?;
        let shift = self.at % 8;
        self.at += len;
        Some(Span { bytes, shift, len })
    }

    /// The bits up to `end`, which are less than eight.
    #[inline(always)]
    pub fn padding(&mut self, end: usize) -> Option<Padding> {
        let len = end.checked_sub(self.at)?;
        Some(Padding { top: (self.run()?.word >> 56) as u8 & !(255 >> len), len })
    }

    /// FILL, which is up to the end of the user bits, and after which there are zeros.
    #[inline(always)]
    pub fn fill(&mut self, user_bits: usize) -> Option<Span<'a>> {
        let pad = self.bytes.get(user_bits / 8)? << (user_bits % 8);
        self.span(user_bits.checked_sub(self.at)?).filter(|_| pad == 0)
    }
}

impl<'a> Bits<'a> {
    /// FILL of a telegram, which is found by the lengths of the packets.
    #[inline(always)]
    fn fill_by_lengths(&self, user_bits: usize) -> Option<Span<'a>> {
        let mut bits = Bits { bytes: self.bytes, at: HEADER };
        loop {
            let mut run = bits.run()?;
            match run.take(NID_PACKET)? {
                255 => {
                    run.pass();
                    return bits.fill(user_bits);
                }
                0 => bits.at += MARKER,
                nid => bits.at = run.frame(Way::ToTrain, nid, user_bits)?.1,
            }
        }
    }
}

impl KeptBits for Span<'_> {
    #[inline(always)]
    fn len(&self) -> usize {
        self.len
    }
    #[inline(always)]
    fn words(&self) -> impl Iterator<Item = u64> {
        let mut rest = self.bytes;
        std::iter::from_fn(move || {
            let (word, after) = rest.split_first_chunk()?;
            rest = after;
            Some(u64::from_be_bytes(*word) << self.shift | u64::from(*rest.first()?) >> (8 - self.shift))
        })
    }
}

// ---- Items as values.

impl Word<'_, '_> {
    /// Reads a packet with a frame, of which NID_PACKET was taken. It must not reach past `end`.
    #[inline(always)]
    fn append_to(mut self, packets: &mut Vec<Packet>, way: Way, nid: u8, end: usize) -> Option<()> {
        let start = self.bits.at;
        let dir = if way == Way::ToTrain { self.take(Q_DIR)? } else { 0 };
        let length: u16 = self.take(L_PACKET)?;
        let Word { bits, taken, .. } = self;
        bits.at += taken;
        let after = start + usize::from(length);
        if after < bits.at || after > end {
            return None;
        }
        let body = Body::read(bits, way, nid, after - bits.at)?;
        packets.push(Packet { nid, dir, length, body });
        (bits.at == after).then_some(())
    }
}

/// The item that the bytes begin with, after which there are some more.
#[inline(always)]
pub fn item(bytes: &[u8], kind: Kind) -> Option<Item> {
    Some(match kind.way() {
        None => Item::Telegram(telegram(bytes, kind.user_bits())?),
        Some(way) => Item::Message(message(bytes, way)?, way),
    })
}

fn telegram(bytes: &[u8], user_bits: usize) -> Option<Telegram> {
    let mut bits = Bits::new(bytes);
    let header = HeaderNumbers::known(&mut bits)?;
    // after every packet is room for packet 255
    let end = user_bits - 8;
    let mut packets = Vec::with_capacity(8);
    loop {
        let mut run = bits.run()?;
        match run.take(NID_PACKET)? {
            255 => {
                run.pass();
                break;
            }
            0 => {
                let body = Body::Marker(run.take(NID_VBCMK)?);
                run.pass();
                if bits.at > end {
                    return None;
                }
                packets.push(Packet { nid: 0, dir: 0, length: 0, body });
            }
            nid => run.append_to(&mut packets, Way::ToTrain, nid, end)?,
        }
    }
    let fill = bits.kept(user_bits - bits.at)?;
    let pad = bytes[user_bits / 8] << (user_bits % 8);
    (pad == 0).then_some(Telegram { header, packets, fill })
}

fn message(bytes: &[u8], way: Way) -> Option<Message> {
    let mut bits = Bits::new(bytes);
    let mut run = bits.run()?;
    let (nid, length) = (run.take(NID_MESSAGE)?, run.take(L_MESSAGE)?);
    let end = 8 * usize::from(length);
    if !way.has_typed_message(nid) {
        run.pass();
        let rest = end.checked_sub(bits.at)?;
        return Some(Message { nid, length, content: Content::Kept(bits.kept(rest)?) });
    }
    let start = run.start(way, nid)?;
    let mut packets = Vec::with_capacity(if bits.at + 7 < end { 8 } else { 0 });
    while bits.at + 7 < end {
        let mut run = bits.run()?;
        let nid = run.take(NID_PACKET)?;
        if !way.has_packet(nid) {
            return None;
        }
        run.append_to(&mut packets, way, nid, end)?;
    }
    let padding = bits.padding(end)?;
    Some(Message { nid, length, content: Content::Typed { start, packets, padding } })
}

// ---- Items without values.

impl<W: Writer> Sent<'_, Bits<'_>, W> {
    /// Sends a packet after its frame.
    #[inline(always)]
    fn packet(&mut self, way: Way, (frame, after): (Frame, usize)) -> Option<()> {
        if !way.has_row(frame.nid) {
            let data = self.source.span(after - self.source.at)?;
            self.sink.kept_packet(&frame, &data);
            return Some(());
        }
        self.sink.begin_packet(&frame);
        self.body(way, frame.nid)?;
        self.sink.end_packet(&frame);
        (self.source.at == after).then_some(())
    }

    #[inline(always)]
    fn telegram(&mut self, kind: Kind) -> Option<()> {
        let user_bits = kind.user_bits();
        let end = user_bits - 8;
        if W::FILL_FIRST {
            let fill = self.source.fill_by_lengths(user_bits)?;
            self.sink.begin_telegram(&fill);
        }
        HeaderNumbers::known(self)?;
        self.sink.begin_packets(kind);
        loop {
            let mut run = self.source.run()?;
            match run.take(NID_PACKET)? {
                255 => {
                    run.pass();
                    break;
                }
                0 => {
                    run.pass();
                    self.sink.begin_packet(&Frame::MARKER);
                    self.take::<_, u8>(NID_VBCMK)?;
                    self.sink.end_packet(&Frame::MARKER);
                    if self.source.at > end {
                        return None;
                    }
                }
                nid => {
                    let frame = run.frame(Way::ToTrain, nid, end)?;
                    self.packet(Way::ToTrain, frame)?;
                }
            }
        }
        let fill = self.source.fill(user_bits)?;
        self.sink.end_telegram(&fill, kind);
        Some(())
    }

    #[inline(always)]
    fn message(&mut self, kind: Kind, way: Way) -> Option<()> {
        let mut run = self.source.run()?;
        let (nid, length) = (run.take(NID_MESSAGE)?, run.take(L_MESSAGE)?);
        let end = 8 * usize::from(length);
        if !way.has_typed_message(nid) {
            run.pass();
            let data = self.source.span(end.checked_sub(self.source.at)?)?;
            self.sink.kept_message(nid, length, &data, kind);
            return Some(());
        }
        let start = run.start(way, nid)?;
        self.sink.begin_message(nid, length, &start, kind);
        while self.source.at + 7 < end {
            let mut run = self.source.run()?;
            let nid = run.take(NID_PACKET)?;
            if !way.has_packet(nid) {
                return None;
            }
            let frame = run.frame(way, nid, end)?;
            self.packet(way, frame)?;
        }
        let padding = self.source.padding(end)?;
        self.sink.end_message(&padding);
        Some(())
    }
}

/// Sends the item that the bytes begin with, after which there are some more.
#[inline(never)]
pub fn send<W: Writer>(bytes: &[u8], kind: Kind, writer: &mut W) -> Option<()> {
    let mut bits = Sent { source: Bits::new(bytes), sink: writer };
    match kind.way() {
        None => bits.telegram(kind),
        Some(way) => bits.message(kind, way),
    }
}
