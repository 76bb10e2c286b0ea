//! Items that are read from lines of JSON, and only from lines such as the program writes.

use crate::input::DIGITS;
use crate::sent::Sent;
use crate::values::*;
use crate::variables::*;
use std::arch::x86_64::*;

/// What is left of a line, with some bytes after it, and how many bits the item has that were read.
struct Line<'a> {
    text: &'a [u8],
    bits: usize,
}

/// What is left after some pairs of a list, how many bits they have, and what was after the last of them: before
/// the first it counts as a comma.
#[derive(Clone, Copy)]
struct Pairs<'a> {
    text: &'a [u8],
    bits: usize,
    separator: u8,
}

/// The pairs of a list, after which `end` bytes of text come, or the bits of a packet that is kept.
struct Fields<'a> {
    pairs: Pairs<'a>,
    end: usize,
    data: Option<Binary<'a>>,
}

/// Binary digits at the front of a text that has 64 bytes for each word of theirs.
struct Binary<'a> {
    text: &'a [u8],
    len: usize,
}

/// What comes before the packets of a message, or all of it if it is kept.
enum Beginning<'a> {
    Typed(u8, Start),
    Kept(u8, Binary<'a>),
}

/// Pairs of which some were taken, and where they are put when these are passed over.
struct Ahead<'r, 'a> {
    pairs: Pairs<'a>,
    place: &'r mut Pairs<'a>,
}

/// The most bytes of a pair with what is after it; there are always that many bytes.
type Next = [u8; 64];

/// The bits that a packet has besides what is in its pairs or data, to the train and to the track, and a message.
const TO_TRAIN: usize = (NID_PACKET::WIDTH + Q_DIR::WIDTH + L_PACKET::WIDTH) as usize;
const TO_TRACK: usize = (NID_PACKET::WIDTH + L_PACKET::WIDTH) as usize;
const MESSAGE: usize = (NID_MESSAGE::WIDTH + L_MESSAGE::WIDTH) as usize;
/// Those of a marker, and of what ends the packets of a telegram.
const NUMBER: usize = NID_PACKET::WIDTH as usize;

/// The most bits of a message.
const MOST_BITS: usize = 8 * 1023;

// ---- Pairs.

const fn most_digits(width: u32) -> usize {
    let mut digits = 1;
    let mut rest = u64::MAX >> (64 - width);
    while rest > 9 {
        rest /= 10;
        digits += 1;
    }
    digits
}

/// The number of a variable, and how many digits it has.
#[inline(always)]
fn number_of<V: Variable>(text: &[u8]) -> Option<(u64, usize)> {
    let digit_at = |at: usize| Some(text[at].wrapping_sub(b'0')).filter(|digit| *digit < 10);
    let mut number = u64::from(digit_at(0)?);
    let mut len = 1;
    // a digit after a zero isn't taken; nothing else that may come next is a digit
    if number > 0 {
        while len < const { most_digits(V::WIDTH) } {
            let Some(digit) = digit_at(len) else { break };
            number = 10 * number + u64::from(digit);
            len += 1;
        }
    }
    (number >> V::WIDTH == 0 && V::admits(number)).then_some((number, len))
}

impl Run for Ahead<'_, '_> {
    #[inline(always)]
    fn take<V: Variable, N: Number>(&mut self, variable: V) -> Option<N> {
        self.pairs.take(variable)
    }

    #[inline(always)]
    fn pass(self) {
        *self.place = self.pairs;
    }
}

impl<'a> Pairs<'a> {
    /// Those of the list that the text begins with.
    #[inline(always)]
    fn new(text: &'a [u8]) -> Option<Pairs<'a>> {
        match text {
            [b'[', b']', text @ ..] => Some(Pairs { text, bits: 0, separator: b']' }),
            [b'[', text @ ..] => Some(Pairs { text, bits: 0, separator: b',' }),
            _ => None,
        }
    }

    /// What comes after the list, if all of them were taken.
    #[inline(always)]
    fn after(&self) -> Option<&'a [u8]> {
        (self.separator == b']').then_some(self.text)
    }

    #[inline(always)]
    fn take<V: Variable, N: Number>(&mut self, _: V) -> Option<N> {
        let next: &Next = self.text.first_chunk()?;
        let (front, rest) = next.split_at(V::PAIR.len);
        if self.separator != b',' || front != &V::PAIR.bytes[..V::PAIR.len] {
            return None;
        }
        let (number, len) = number_of::<V>(rest)?;
        if rest[len] != b']' {
            return None;
        }
        self.separator = rest[len + 1];
        self.text = &self.text[V::PAIR.len + len + 2..];
        self.bits += V::WIDTH as usize;
        Some(N::from_number(number))
    }
}

impl<'a> Fields<'a> {
    /// How many bits all the pairs that were taken have; none if there is something else.
    #[inline(always)]
    fn bits(&self) -> Option<usize> {
        (self.pairs.after()?.len() == self.end && self.data.is_none()).then_some(self.pairs.bits)
    }
}

impl<'a> Source for Fields<'a> {
    type Run<'r>
        = Ahead<'r, 'a>
    where
        'a: 'r;

    #[inline(always)]
    fn run(&mut self) -> Option<Ahead<'_, 'a>> {
        Some(Ahead { pairs: self.pairs, place: &mut self.pairs })
    }

    #[inline(always)]
    fn radio(&mut self) -> Option<u64> {
        let next: &Next = self.pairs.text.first_chunk()?;
        let (front, rest) = next.split_at(NID_RADIO::PAIR.len);
        let ([b'"', digits @ .., b'"', b']', separator], _) = rest.split_first_chunk::<20>()? else {
            return None;
        };
        if self.pairs.separator != b',' || front != &NID_RADIO::PAIR.bytes[..NID_RADIO::PAIR.len] {
            return None;
        }
        let mut number = 0;
        for digit in digits {
            let value = DIGITS[usize::from(*digit)];
            if value > 15 || digit.is_ascii_uppercase() {
                return None;
            }
            number = number << 4 | u64::from(value);
        }
        self.pairs.separator = *separator;
        self.pairs.text = &self.pairs.text[NID_RADIO::PAIR.len + 20..];
        self.pairs.bits += 64;
        Some(number)
    }

    fn text(&mut self, len: usize) -> Option<Vec<u8>> {
        let mut text = Vec::with_capacity(len);
        for _ in 0..len {
            text.push(self.pairs.take(X_TEXT)?);
        }
        Some(text)
    }

    #[inline(always)]
    fn kept(&mut self, _: usize) -> Option<Kept> {
        self.data.take().map(|data| Kept::of(&data))
    }
}

// ---- Digits and lists.

/// Sixteen bytes of a text.
#[inline(always)]
fn sixteen(text: &[u8], at: usize) -> Option<__m128i> {
    let bytes = text.get(at..at + 16)?;
    // SAFETY: there are 16 bytes
    Some(unsafe { _mm_loadu_si128(bytes.as_ptr().cast()) })
}

/// Where the first of these bytes is that isn't as it has to be, if there is one.
#[inline(always)]
fn first_unequal(these: __m128i, mask: u8, wanted: u8) -> Option<usize> {
    // SAFETY: every x86-64 has SSE2
    let equal = unsafe {
        let masked = _mm_and_si128(these, _mm_set1_epi8(mask as i8));
        _mm_movemask_epi8(_mm_cmpeq_epi8(masked, _mm_set1_epi8(wanted as i8)))
    };
    (equal != 0xFFFF).then_some(equal.trailing_ones() as usize)
}

impl KeptBits for Binary<'_> {
    #[inline(always)]
    fn len(&self) -> usize {
        self.len
    }
    #[inline(always)]
    fn words(&self) -> impl Iterator<Item = u64> {
        self.text.chunks_exact(64).map(|digits| {
            let mut word = 0;
            for at in [48, 32, 16, 0] {
                // SAFETY: there are 64 bytes, and every x86-64 has SSE2
                let sixteen = unsafe {
                    let these = _mm_loadu_si128(digits[at..at + 16].as_ptr().cast());
                    _mm_movemask_epi8(_mm_slli_epi16(these, 7))
                };
                word = word << 16 | sixteen as u64;
            }
            word.reverse_bits()
        })
    }
}

/// What comes after the pairs of a list: up to there no two closing brackets are next to each other.
#[inline(never)]
fn after_pairs(text: &[u8]) -> Option<&[u8]> {
    let mut at = 0;
    while let Some(chunk) = text.get(at..at + 17) {
        let chunk = chunk.as_ptr();
        // SAFETY: from here on, and from the next byte on, there are 16 bytes
        let (these, next) = unsafe { (_mm_loadu_si128(chunk.cast()), _mm_loadu_si128(chunk.add(1).cast())) };
        // SAFETY: every x86-64 has SSE2
        let found = unsafe {
            let bracket = _mm_set1_epi8(b']' as i8);
            _mm_movemask_epi8(_mm_and_si128(_mm_cmpeq_epi8(these, bracket), _mm_cmpeq_epi8(next, bracket)))
        };
        if found != 0 {
            return text.get(at + found.trailing_zeros() as usize + 2..);
        }
        at += 16;
    }
    None
}

// ---- Lines.

impl<'a> Line<'a> {
    #[inline(always)]
    fn expect(&mut self, front: &str) -> Option<()> {
        self.text = self.text.strip_prefix(front.as_bytes())?;
        Some(())
    }

    #[inline(always)]
    fn comes(&mut self, front: &str) -> bool {
        self.expect(front).is_some()
    }

    #[inline(always)]
    fn number<V: Variable, N: Number>(&mut self, _: V) -> Option<N> {
        let next: &Next = self.text.first_chunk()?;
        let (number, len) = number_of::<V>(next)?;
        self.text = &self.text[len..];
        Some(N::from_number(number))
    }

    /// The digits up to the next quotation mark and comma.
    #[inline(always)]
    fn kept(&mut self) -> Option<Binary<'a>> {
        let mut len = 0;
        loop {
            let Some(more) = first_unequal(sixteen(self.text, len)?, 0xFE, b'0') else {
                len += 16;
                continue;
            };
            len += more;
            let text = self.text.get(..len.next_multiple_of(64))?;
            self.text = &self.text[len..];
            self.expect("\",")?;
            return Some(Binary { text, len });
        }
    }

    #[inline(always)]
    fn padding(&mut self) -> Option<Padding> {
        let mut padding = Padding { top: 0, len: 0 };
        while let [digit @ (b'0' | b'1'), after @ ..] = self.text {
            if padding.len == 7 {
                return None;
            }
            padding.top |= (digit & 1) << (7 - padding.len);
            padding.len += 1;
            self.text = after;
        }
        self.bits += padding.len;
        Some(padding)
    }

    /// Takes the pairs of the list that comes next.
    #[inline(always)]
    fn pairs<T>(&mut self, taken: impl FnOnce(&mut Fields<'a>) -> Option<T>) -> Option<T> {
        let mut fields = Fields { pairs: Pairs::new(self.text)?, end: 0, data: None };
        let value = taken(&mut fields)?;
        self.text = fields.pairs.after()?;
        self.bits += fields.pairs.bits;
        Some(value)
    }

    /// Passes over the list that comes next, since what its pairs are is said after it.
    #[inline(always)]
    fn list(&mut self) -> Option<Fields<'a>> {
        let pairs = Pairs::new(self.text)?;
        self.text = pairs.after().or_else(|| after_pairs(pairs.text))?;
        Some(Fields { pairs, end: self.text.len(), data: None })
    }

    /// The direction, the number and the pairs of a packet, of which the bracket was read.
    #[inline(always)]
    fn packet(&mut self) -> Option<(Option<u8>, u8, Fields<'a>)> {
        let data = if self.comes("\"data\":\"") { Some(self.kept()?) } else { None };
        let mut dir = None;
        if self.comes("\"dir\":") {
            dir = Some(self.number(Q_DIR)?);
            self.expect(",")?;
        }
        let fields = match data {
            None => {
                self.expect("\"fields\":")?;
                let fields = self.list()?;
                self.expect(",")?;
                fields
            }
            data => Fields { pairs: Pairs { text: b"", bits: 0, separator: b']' }, end: 0, data },
        };
        self.expect("\"nid\":")?;
        Some((dir, self.number(NID_PACKET)?, fields))
    }

    /// Reads each packet of a list, whose bracket comes next.
    #[inline(always)]
    fn each_packet(&mut self, mut read: impl FnMut(&mut Self) -> Option<()>) -> Option<()> {
        if self.comes("]") {
            return Some(());
        }
        loop {
            self.expect("{")?;
            read(self)?;
            if !self.comes("},") {
                return self.expect("}]");
            }
        }
    }

    /// FILL and the header of a telegram, and what comes up to its packets.
    #[inline(always)]
    fn begin_telegram(&mut self, kind: Kind) -> Option<(Binary<'a>, HeaderNumbers)> {
        self.expect("{\"fill\":\"")?;
        let fill = self.kept()?;
        self.expect("\"header\":")?;
        let header = self.pairs(HeaderNumbers::known)?;
        self.expect(match kind {
            Kind::Short => ",\"kind\":\"short\",\"packets\":[",
            _ => ",\"kind\":\"long\",\"packets\":[",
        })?;
        self.bits += NUMBER + fill.len;
        Some((fill, header))
    }

    #[inline(always)]
    fn begin_message(&mut self, way: Way) -> Option<Beginning<'a>> {
        let kind = match way {
            Way::ToTrain => "\"kind\":\"radio\",\"nid\":",
            Way::ToTrack => "\"kind\":\"train\",\"nid\":",
        };
        self.bits = MESSAGE;
        if self.comes("{\"data\":\"") {
            let data = self.kept()?;
            self.expect(kind)?;
            self.bits += data.len;
            let nid = self.number(NID_MESSAGE)?;
            return (!way.has_typed_message(nid)).then_some(Beginning::Kept(nid, data));
        }
        self.expect("{\"fields\":")?;
        let mut fields = self.list()?;
        self.expect(",\"header\":")?;
        let (t_train, head) = self.pairs(|header| Some((header.take(T_TRAIN)?, Head::read(header, way)?)))?;
        self.expect(",")?;
        self.expect(kind)?;
        let nid = self.number(NID_MESSAGE)?;
        let own = Own::read(&mut fields, way, nid)?;
        self.bits += fields.bits()?;
        self.expect(",\"packets\":[")?;
        way.has_typed_message(nid).then_some(Beginning::Typed(nid, Start { t_train, head, own }))
    }

    /// PADDING of a message, after its packets.
    #[inline(always)]
    fn end_message(&mut self) -> Option<Padding> {
        self.expect(",\"padding\":\"")?;
        let padding = self.padding()?;
        self.expect("\"")?;
        Some(padding)
    }

    /// The length of a message that was read.
    #[inline(always)]
    fn length(&self) -> Option<u16> {
        (self.bits % 8 == 0 && self.bits <= MOST_BITS).then_some((self.bits / 8) as u16)
    }
}

/// How many bits a packet has besides its pairs or its data. Packet 0 of a telegram is a marker.
#[inline(always)]
fn frame_bits(way: Way, has_markers: bool, dir: Option<u8>, nid: u8) -> Option<usize> {
    match (way, dir) {
        (Way::ToTrain, None) if has_markers && nid == 0 => Some(NUMBER),
        (Way::ToTrain, Some(_)) if way.has_packet(nid) => Some(TO_TRAIN),
        (Way::ToTrack, None) => Some(TO_TRACK),
        _ => None,
    }
}

// ---- Items as values.

impl Line<'_> {
    #[inline(always)]
    fn packets(&mut self, way: Way, has_markers: bool) -> Option<Vec<Packet>> {
        let mut packets = Vec::with_capacity(if self.text.first() == Some(&b']') { 0 } else { 8 });
        self.each_packet(|line| {
            let (dir, nid, mut fields) = line.packet()?;
            let kept = fields.data.as_ref().map_or(0, |data| data.len);
            let frame = frame_bits(way, has_markers, dir, nid)?;
            let body = match frame {
                NUMBER => Body::Marker(fields.take(NID_VBCMK)?),
                _ => Body::read(&mut fields, way, nid, 0)?,
            };
            let bits = frame + kept + fields.bits()?;
            line.bits += bits;
            // a marker has no length
            let length = if frame == NUMBER { 0 } else { bits as u16 };
            packets.push(Packet { nid, dir: dir.unwrap_or(0), length, body });
            Some(())
        })?;
        Some(packets)
    }

    fn telegram(&mut self, kind: Kind) -> Option<Telegram> {
        let (fill, header) = self.begin_telegram(kind)?;
        let packets = self.packets(Way::ToTrain, true)?;
        (self.bits == kind.user_bits()).then(|| Telegram { header, packets, fill: Kept::of(&fill) })
    }

    fn message(&mut self, way: Way) -> Option<Message> {
        let (nid, content) = match self.begin_message(way)? {
            Beginning::Kept(nid, data) => (nid, Content::Kept(Kept::of(&data))),
            Beginning::Typed(nid, start) => {
                let packets = self.packets(way, false)?;
                let padding = self.end_message()?;
                (nid, Content::Typed { start, packets, padding })
            }
        };
        Some(Message { nid, length: self.length()?, content })
    }
}

/// The item of the line that the text begins with, and how many bytes the line has. There are some more bytes after it.
#[inline(always)]
pub fn item(text: &[u8], kind: Kind) -> Option<(Item, usize)> {
    let mut line = Line { text, bits: 0 };
    let item = match kind.way() {
        None => Item::Telegram(line.telegram(kind)?),
        Some(way) => Item::Message(line.message(way)?, way),
    };
    line.expect("}\n")?;
    Some((item, text.len() - line.text.len()))
}

// ---- Items without values.

impl Line<'_> {
    /// Sends a packet, and returns its bits.
    #[inline(always)]
    fn send_packet<W: Writer>(&mut self, writer: &mut W, way: Way, has_markers: bool) -> Option<usize> {
        let (dir, nid, fields) = self.packet()?;
        let frame = frame_bits(way, has_markers, dir, nid)?;
        let mut fields = Sent { source: fields, sink: writer };
        if frame == NUMBER {
            fields.sink.begin_packet(&Frame::MARKER);
            fields.take::<_, u8>(NID_VBCMK)?;
            return Some(frame + fields.source.bits()?);
        }
        if !way.has_row(nid) {
            let data = fields.source.data.take()?;
            let bits = frame + data.len;
            fields.sink.kept_packet(&Frame { nid, dir, length: Some(bits as u16) }, &data);
            return Some(bits);
        }
        fields.sink.begin_packet(&Frame { nid, dir, length: Some(0) });
        fields.body(way, nid)?;
        let bits = frame + fields.source.bits()?;
        fields.sink.set(bits - (frame - L_PACKET::WIDTH as usize), L_PACKET, bits);
        Some(bits)
    }

    #[inline(always)]
    fn send_packets<W: Writer>(&mut self, writer: &mut W, way: Way, has_markers: bool) -> Option<()> {
        self.each_packet(|line| {
            line.bits += line.send_packet(writer, way, has_markers)?;
            // there is room for so many
            (line.bits <= MOST_BITS).then_some(())
        })
    }

    #[inline(always)]
    fn send_telegram<W: Writer>(&mut self, kind: Kind, writer: &mut W) -> Option<()> {
        let (fill, header) = self.begin_telegram(kind)?;
        header.send(writer);
        self.send_packets(writer, Way::ToTrain, true)?;
        writer.end_telegram(&fill, kind);
        (self.bits == kind.user_bits()).then_some(())
    }

    #[inline(always)]
    fn send_message<W: Writer>(&mut self, kind: Kind, way: Way, writer: &mut W) -> Option<()> {
        match self.begin_message(way)? {
            Beginning::Kept(nid, data) => writer.kept_message(nid, self.length()?, &data, kind),
            Beginning::Typed(nid, start) => {
                writer.begin_message(nid, 0, &start, kind);
                self.send_packets(writer, way, false)?;
                let padding = self.end_message()?;
                writer.end_message(&padding);
                writer.set(self.bits - NID_MESSAGE::WIDTH as usize, L_MESSAGE, self.length()?.into());
            }
        }
        Some(())
    }
}

/// Sends the item of the line that the text begins with. How many bits it has, and how many bytes the line.
#[inline(never)]
pub fn send<W: Writer>(text: &[u8], kind: Kind, writer: &mut W) -> Option<(usize, usize)> {
    let mut line = Line { text, bits: 0 };
    match kind.way() {
        None => line.send_telegram(kind, writer)?,
        Some(way) => line.send_message(kind, way, writer)?,
    }
    line.expect("}\n")?;
    Some((line.bits, text.len() - line.text.len()))
}
