//! What is written for values.

use crate::values::*;
use crate::variables::*;
use std::arch::x86_64::*;
use std::io::{self, Write};

/// Text with room for all of one item after what is kept of those before.
pub struct Text {
    pub bytes: Box<[u8; KEPT + MOST]>,
    pub len: usize,
}

/// How much is kept before it is written, and the most that one item takes: each of its 8,184 bits is at most
/// the line of a variable.
pub const KEPT: usize = 1 << 16;
pub const MOST: usize = 1 << 19;

/// Four digits of each number, and eight of each byte.
pub static DECIMAL: [[u8; 4]; 10000] = decimal_digits();
pub static BINARY: [[u8; 8]; 256] = binary_digits();
pub const HEXADECIMAL: &[u8; 16] = b"0123456789ABCDEF";

pub const fn decimal_digits() -> [[u8; 4]; 10000] {
    let mut digits = [[0; 4]; 10000];
    let mut number = 0;
    while number < 10000 {
        let n = number as u32;
        digits[number] =
            [b'0' + (n / 1000) as u8, b'0' + (n / 100 % 10) as u8, b'0' + (n / 10 % 10) as u8, b'0' + (n % 10) as u8];
        number += 1;
    }
    digits
}

pub const fn binary_digits() -> [[u8; 8]; 256] {
    let mut digits = [[0; 8]; 256];
    let mut at = 0;
    while at < 256 * 8 {
        digits[at / 8][at % 8] = b'0' + (at / 8 >> (7 - at % 8) & 1) as u8;
        at += 1;
    }
    digits
}

/// Writes a number below 10,000 at the front of `place`, and returns how many digits it has.
#[inline(always)]
pub fn write_short(number: u64, place: &mut [u8]) -> usize {
    let digits = 1 + usize::from(number > 9) + usize::from(number > 99) + usize::from(number > 999);
    let four = u32::from_le_bytes(DECIMAL[number as usize]) >> (8 * (4 - digits));
    place[..4].copy_from_slice(&four.to_le_bytes());
    digits
}

/// Writes any number there.
#[inline(always)]
pub fn write_number(number: u64, place: &mut [u8]) -> usize {
    if number < 10_000 {
        return write_short(number, place);
    }
    write_long(number, place)
}

#[inline(never)]
pub fn write_long(number: u64, place: &mut [u8]) -> usize {
    let upper = write_number(number / 10_000, place);
    place[upper..upper + 4].copy_from_slice(&DECIMAL[(number % 10_000) as usize]);
    upper + 4
}

/// Writes the number of a variable there.
#[inline(always)]
pub fn write_number_of<V: Variable>(number: u64, place: &mut [u8]) -> usize {
    if V::WIDTH <= 3 {
        place[0] = b'0' + number as u8;
        return 1;
    }
    if V::WIDTH <= 13 {
        return write_short(number, place);
    }
    if V::WIDTH <= 32 {
        return write_number(number, place);
    }
    for (at, digit) in place[..16].iter_mut().enumerate() {
        *digit = HEXADECIMAL[(number >> (60 - 4 * at) & 15) as usize].to_ascii_lowercase();
    }
    16
}

impl Text {
    pub fn new() -> Text {
        Text { bytes: vec![0; KEPT + MOST].try_into().unwrap(), len: 0 }
    }

    /// The next 64 bytes.
    #[inline(always)]
    pub fn place(&mut self) -> &mut [u8; 64] {
        self.bytes[self.len..].first_chunk_mut().unwrap()
    }

    /// Appends at most 64 bytes.
    #[inline(always)]
    pub fn push(&mut self, text: &str) {
        self.place()[..text.len()].copy_from_slice(text.as_bytes());
        self.len += text.len();
    }

    #[inline(always)]
    pub fn push_number(&mut self, number: u64) {
        let digits = write_number(number, self.place());
        self.len += digits;
    }

    /// Puts a number in place of the zero that is there.
    fn put_for_zero(&mut self, number: usize, at: usize) {
        let mut digits = [0; 32];
        let len = write_number(number as u64, &mut digits);
        self.bytes.copy_within(at + 1..self.len, at + len);
        self.bytes[at..at + len].copy_from_slice(&digits[..len]);
        self.len += len - 1;
    }

    /// Appends the line of an item that is accepted.
    #[inline(always)]
    pub fn push_accepted(&mut self, number: u64, bits: usize) {
        let place = self.place();
        place[..5].copy_from_slice(b"item ");
        let mut len = 5 + write_number(number, &mut place[5..]);
        place[len..len + 4].copy_from_slice(b" ok ");
        len += 4;
        len += write_short(bits as u64, &mut place[len..]);
        place[len..len + 6].copy_from_slice(b" bits\n");
        self.len += len + 6;
    }

    pub fn push_bits(&mut self, bits: &impl KeptBits) {
        let end = self.len + bits.len();
        for word in bits.words() {
            let place = self.place();
            for (digits, byte) in place.chunks_exact_mut(8).zip(word.to_be_bytes()) {
                digits.copy_from_slice(&BINARY[usize::from(byte)]);
            }
            self.len += 64;
        }
        self.len = end;
    }

    #[inline(always)]
    pub fn push_padding(&mut self, padding: &Padding) {
        self.place()[..8].copy_from_slice(&BINARY[usize::from(padding.top)]);
        self.len += padding.len;
    }

    #[inline(always)]
    pub fn push_bytes(&mut self, bytes: &[u8]) {
        self.bytes[self.len..][..bytes.len()].copy_from_slice(bytes);
        self.len += bytes.len();
    }

    pub fn push_hexadecimal(&mut self, bytes: &[u8]) {
        let digits = self.bytes[self.len..][..2 * bytes.len()].chunks_exact_mut(2);
        for (pair, byte) in digits.zip(bytes) {
            pair.copy_from_slice(&[HEXADECIMAL[usize::from(byte >> 4)], HEXADECIMAL[usize::from(byte & 15)]]);
        }
        self.len += 2 * bytes.len();
    }

    /// Appends the digits of the first bytes, as many as are said, sixteen at a time. There are 15 more after them.
    #[inline(always)]
    pub fn push_hexadecimal_by_sixteen(&mut self, bytes: &[u8], len: usize) {
        for at in (0..len).step_by(16) {
            let sixteen: &[u8; 16] = bytes[at..].first_chunk().unwrap();
            let place: &mut [u8; 32] = self.bytes[self.len + 2 * at..].first_chunk_mut().unwrap();
            // SAFETY: there are 16 bytes to read and 32 to write, and every x86-64 has SSE2
            unsafe {
                let bytes = _mm_loadu_si128(sixteen.as_ptr().cast());
                let low = _mm_set1_epi8(15);
                let (upper, lower) = (_mm_and_si128(_mm_srli_epi16(bytes, 4), low), _mm_and_si128(bytes, low));
                let pairs = [_mm_unpacklo_epi8(upper, lower), _mm_unpackhi_epi8(upper, lower)];
                for (half, pair) in place.chunks_exact_mut(16).zip(pairs) {
                    let is_letter = _mm_cmpgt_epi8(pair, _mm_set1_epi8(9));
                    let letter = _mm_and_si128(is_letter, _mm_set1_epi8((b'A' - b'0' - 10) as i8));
                    let digits = _mm_add_epi8(_mm_add_epi8(pair, _mm_set1_epi8(b'0' as i8)), letter);
                    _mm_storeu_si128(half.as_mut_ptr().cast(), digits);
                }
            }
        }
        self.len += 2 * len;
    }

    /// Ends a list of JSON, each item of which has its comma.
    #[inline(always)]
    pub fn end_list(&mut self) {
        if self.bytes[self.len - 1] == b',' {
            self.len -= 1;
        }
        self.push("]");
    }

    pub fn write_out(&mut self) -> io::Result<()> {
        io::stdout().write_all(&self.bytes[..self.len])?;
        self.len = 0;
        Ok(())
    }
}

// ---- Text of variables.

/// Lines of variables, and where the number is of the bits of an item, of L_MESSAGE and of the last L_PACKET.
pub struct Lines<'a> {
    text: &'a mut Text,
    bits_at: usize,
    message_at: usize,
    packet_at: usize,
}

impl Sink for Lines<'_> {
    #[inline(always)]
    fn put<V: Variable>(&mut self, variable: V, number: impl Number) {
        let _ = variable;
        let number = number.number();
        let place = self.text.place();
        place[..32].copy_from_slice(&V::LINE.bytes);
        let mut len = V::LINE.len + write_number_of::<V>(number, &mut place[V::LINE.len..]);
        place[len] = b'\n';
        len += 1;
        self.text.len += len;
        for (meant, meaning) in V::MEANINGS {
            if number == *meant {
                self.text.len -= 1;
                self.text.push(" (");
                self.text.push(meaning);
                self.text.push(")\n");
            }
        }
    }
}

impl Lines<'_> {
    pub fn new(text: &mut Text) -> Lines<'_> {
        Lines { text, bits_at: 0, message_at: 0, packet_at: 0 }
    }

    /// Sets the bits of the item, which were written as zero.
    pub fn set_bits(&mut self, bits: usize) {
        self.text.put_for_zero(bits, self.bits_at);
    }

    fn kept(&mut self, name: &str, bits: &impl KeptBits) {
        self.text.push(name);
        self.text.push_number(bits.len() as u64);
        if bits.len() > 0 {
            self.text.push(" ");
            self.text.push_bits(bits);
        }
        self.text.push("\n");
    }

    #[inline(always)]
    pub fn item(&mut self, number: u64, kind: Kind, bits: usize) {
        self.text.push("item ");
        self.text.push_number(number);
        self.text.push(" ");
        self.text.push(kind.name());
        self.text.push(" ");
        self.bits_at = self.text.len;
        self.text.push_number(bits as u64);
        self.text.push(" bits\n");
    }
}

impl Writer for Lines<'_> {
    fn end_telegram(&mut self, fill: &impl KeptBits, _: Kind) {
        self.text.push("packet 255\n");
        self.kept("  FILL ", fill);
    }

    fn begin_message(&mut self, nid: u8, length: u16, start: &Start, _: Kind) {
        self.put(NID_MESSAGE, nid);
        self.message_at = self.text.len + L_MESSAGE::LINE.len;
        self.put(L_MESSAGE, length);
        self.put(T_TRAIN, start.t_train);
        start.head.send(self);
        match &start.own {
            // the one number that is printed with its sign
            Own::Shift(q_scale, d_ref) => {
                self.put(Q_SCALE, *q_scale);
                self.text.push(if *d_ref < 0 { "  D_REF -" } else { "  D_REF " });
                self.text.push_number(d_ref.unsigned_abs().into());
                self.text.push("\n");
            }
            own => own.send(self),
        }
    }

    fn end_message(&mut self, padding: &Padding) {
        self.text.push("end\n");
        self.text.push("  PADDING ");
        self.text.push_number(padding.len as u64);
        if padding.len > 0 {
            self.text.push(" ");
            self.text.push_padding(padding);
        }
        self.text.push("\n");
    }

    fn kept_message(&mut self, nid: u8, length: u16, data: &impl KeptBits, _: Kind) {
        self.put(NID_MESSAGE, nid);
        self.put(L_MESSAGE, length);
        self.kept("  OTHER_DATA ", data);
    }

    #[inline(always)]
    fn begin_packet(&mut self, frame: &Frame) {
        self.text.push("packet ");
        self.text.push_number(frame.nid.into());
        self.text.push("\n");
        if let Some(dir) = frame.dir {
            self.put(Q_DIR, dir);
        }
        if let Some(length) = frame.length {
            self.packet_at = self.text.len + L_PACKET::LINE.len;
            self.put(L_PACKET, length);
        }
    }

    fn kept_packet(&mut self, frame: &Frame, data: &impl KeptBits) {
        self.begin_packet(frame);
        self.kept("  OTHER_DATA ", data);
    }

    #[inline(always)]
    fn set<V: Variable>(&mut self, _: usize, _: V, number: usize) {
        let at = if V::WIDTH == L_PACKET::WIDTH { self.packet_at } else { self.message_at };
        self.text.put_for_zero(number, at);
    }
}

/// Pairs of JSON.
pub struct Pairs<'a>(pub &'a mut Text);

impl Sink for Pairs<'_> {
    #[inline(always)]
    fn put<V: Variable>(&mut self, variable: V, number: impl Number) {
        let _ = variable;
        let place = self.0.place();
        place[..32].copy_from_slice(&V::PAIR.bytes);
        let mut len = V::PAIR.len;
        if V::WIDTH == 64 {
            place[len] = b'"';
            len += 1;
        }
        len += write_number_of::<V>(number.number(), &mut place[len..]);
        if V::WIDTH == 64 {
            place[len] = b'"';
            len += 1;
        }
        place[len..len + 2].copy_from_slice(b"],");
        self.0.len += len + 2;
    }
}

impl Pairs<'_> {
    /// A member whose bits are digits of a text, after its bracket.
    fn kept(&mut self, name: &str, bits: &impl KeptBits) {
        self.0.push(name);
        self.0.push_bits(bits);
        self.0.push("\",");
    }

    #[inline(always)]
    fn dir(&mut self, frame: &Frame) {
        if let Some(dir) = frame.dir {
            self.0.push("\"dir\":");
            self.0.push_number(dir.into());
            self.0.push(",");
        }
    }

    #[inline(always)]
    fn nid(&mut self, nid: u8) {
        self.0.push("\"nid\":");
        self.0.push_number(nid.into());
    }

    #[inline(always)]
    fn kind(&mut self, kind: Kind) {
        self.0.push("\"kind\":\"");
        self.0.push(kind.name());
        self.0.push("\",");
    }
}

impl Writer for Pairs<'_> {
    const FILL_FIRST: bool = true;

    fn begin_telegram(&mut self, fill: &impl KeptBits) {
        self.kept("{\"fill\":\"", fill);
        self.0.push("\"header\":[");
    }

    fn begin_packets(&mut self, kind: Kind) {
        self.0.end_list();
        self.0.push(",");
        self.kind(kind);
        self.0.push("\"packets\":[");
    }

    fn end_telegram(&mut self, _: &impl KeptBits, _: Kind) {
        self.0.end_list();
        self.0.push("}\n");
    }

    fn begin_message(&mut self, nid: u8, _: u16, start: &Start, kind: Kind) {
        self.0.push("{\"fields\":[");
        start.own.send(self);
        self.0.end_list();
        self.0.push(",\"header\":[");
        self.put(T_TRAIN, start.t_train);
        start.head.send(self);
        self.0.end_list();
        self.0.push(",");
        self.kind(kind);
        self.nid(nid);
        self.0.push(",\"packets\":[");
    }

    fn end_message(&mut self, padding: &Padding) {
        self.0.end_list();
        self.0.push(",\"padding\":\"");
        self.0.push_padding(padding);
        self.0.push("\"}\n");
    }

    fn kept_message(&mut self, nid: u8, _: u16, data: &impl KeptBits, kind: Kind) {
        self.kept("{\"data\":\"", data);
        self.kind(kind);
        self.nid(nid);
        self.0.push("}\n");
    }

    #[inline(always)]
    fn begin_packet(&mut self, frame: &Frame) {
        self.0.push("{");
        self.dir(frame);
        self.0.push("\"fields\":[");
    }

    #[inline(always)]
    fn end_packet(&mut self, frame: &Frame) {
        self.0.end_list();
        self.0.push(",");
        self.nid(frame.nid);
        self.0.push("},");
    }

    fn kept_packet(&mut self, frame: &Frame, data: &impl KeptBits) {
        self.kept("{\"data\":\"", data);
        self.dir(frame);
        self.nid(frame.nid);
        self.0.push("},");
    }
}

/// Bits that are written: those in the lowest `taken` bits of the word aren't in the text yet.
pub struct Spelling<'a> {
    text: &'a mut Text,
    word: u64,
    taken: u32,
}

impl Sink for Spelling<'_> {
    #[inline(always)]
    fn put<V: Variable>(&mut self, variable: V, number: impl Number) {
        let _ = variable;
        let number = number.number();
        if V::WIDTH == 64 {
            self.put_word(number);
        } else {
            self.put_bits(V::WIDTH, number);
        }
    }
}

impl Spelling<'_> {
    pub fn new(text: &mut Text) -> Spelling<'_> {
        Spelling { text, word: 0, taken: 0 }
    }

    /// Writes the lowest bits of the number, at most 57.
    #[inline(always)]
    pub fn put_bits(&mut self, width: u32, number: u64) {
        if self.taken + width > 64 {
            self.write_bytes();
        }
        self.word = self.word << width | number;
        self.taken += width;
    }

    #[inline(always)]
    pub fn put_word(&mut self, word: u64) {
        if self.taken > 7 {
            self.write_bytes();
        }
        let upper = if self.taken > 0 { self.word << (64 - self.taken) } else { 0 };
        self.text.place()[..8].copy_from_slice(&(upper | word >> self.taken).to_be_bytes());
        self.text.len += 8;
        self.word = word;
    }

    /// Writes the bytes that are whole; there is at least one bit.
    #[inline(always)]
    pub fn write_bytes(&mut self) {
        let word = self.word << (64 - self.taken);
        self.text.place()[..8].copy_from_slice(&word.to_be_bytes());
        self.text.len += self.taken as usize / 8;
        self.taken %= 8;
    }

    /// Writes bits; those after the last of them are zeros.
    fn kept(&mut self, bits: &impl KeptBits) {
        let mut left = bits.len();
        for word in bits.words() {
            if left >= 64 {
                self.put_word(word);
                left -= 64;
            } else {
                let (rest, word) = (left as u32, word >> (64 - left));
                if rest > 32 {
                    self.put_bits(rest - 32, word >> 32);
                }
                self.put_bits(rest.min(32), word & 0xFFFF_FFFF);
            }
        }
    }
}

impl Writer for Spelling<'_> {
    fn end_telegram(&mut self, fill: &impl KeptBits, kind: Kind) {
        self.put(NID_PACKET, 255_u8);
        self.kept(fill);
        self.put_bits(if kind == Kind::Short { 6 } else { 2 }, 0);
        self.write_bytes();
    }

    fn begin_message(&mut self, nid: u8, length: u16, start: &Start, _: Kind) {
        self.put(NID_MESSAGE, nid);
        self.put(L_MESSAGE, length);
        self.put(T_TRAIN, start.t_train);
        start.head.send(self);
        start.own.send(self);
    }

    fn end_message(&mut self, padding: &Padding) {
        self.put_bits(padding.len as u32, u64::from(padding.top) >> (8 - padding.len));
        if self.taken > 0 {
            self.write_bytes();
        }
    }

    fn kept_message(&mut self, nid: u8, length: u16, data: &impl KeptBits, _: Kind) {
        self.put(NID_MESSAGE, nid);
        self.put(L_MESSAGE, length);
        self.kept(data);
        if self.taken > 0 {
            self.write_bytes();
        }
    }

    #[inline(always)]
    fn begin_packet(&mut self, frame: &Frame) {
        self.put(NID_PACKET, frame.nid);
        if let Some(dir) = frame.dir {
            self.put(Q_DIR, dir);
        }
        if let Some(length) = frame.length {
            self.put(L_PACKET, length);
        }
    }

    fn kept_packet(&mut self, frame: &Frame, data: &impl KeptBits) {
        self.begin_packet(frame);
        self.kept(data);
    }

    #[inline(always)]
    fn set<V: Variable>(&mut self, back: usize, _: V, number: usize) {
        if self.taken > 7 {
            self.write_bytes();
        }
        // bits that aren't in the text are there too, as the first of a byte
        let next = 8 * self.text.len + self.taken as usize;
        self.text.place()[0] = (self.word << 8 >> self.taken) as u8;
        let at = next - back;
        let place: &mut [u8; 4] = self.text.bytes[at / 8..].first_chunk_mut().unwrap();
        let number = (number as u32) << (32 - V::WIDTH) >> (at % 8);
        *place = (u32::from_be_bytes(*place) | number).to_be_bytes();
        self.word = u64::from(self.text.place()[0]) >> (8 - self.taken);
    }
}

// ---- Items as values.

impl Lines<'_> {
    fn packets(&mut self, packets: &[Packet], way: Way) {
        for packet in packets {
            self.text.push("packet ");
            self.text.push_number(packet.nid.into());
            self.text.push("\n");
            if !matches!(packet.body, Body::Marker(_)) {
                if way == Way::ToTrain {
                    self.put(Q_DIR, packet.dir);
                }
                self.put(L_PACKET, packet.length);
            }
            match &packet.body {
                Body::Kept(bits) => self.kept("  OTHER_DATA ", bits),
                body => body.send(self),
            }
        }
    }

    pub fn telegram(&mut self, telegram: &Telegram) {
        telegram.header.send(self);
        self.packets(&telegram.packets, Way::ToTrain);
        self.text.push("packet 255\n");
        self.kept("  FILL ", &telegram.fill);
    }

    pub fn message(&mut self, message: &Message, way: Way) {
        self.put(NID_MESSAGE, message.nid);
        self.put(L_MESSAGE, message.length);
        match &message.content {
            Content::Kept(bits) => self.kept("  OTHER_DATA ", bits),
            Content::Typed { start: Start { t_train, head, own }, packets, padding } => {
                self.put(T_TRAIN, *t_train);
                head.send(self);
                match own {
                    // the one number that is printed with its sign
                    Own::Shift(q_scale, d_ref) => {
                        self.put(Q_SCALE, *q_scale);
                        self.text.push(if *d_ref < 0 { "  D_REF -" } else { "  D_REF " });
                        self.text.push_number(d_ref.unsigned_abs().into());
                        self.text.push("\n");
                    }
                    own => own.send(self),
                }
                self.packets(packets, way);
                self.text.push("end\n");
                self.text.push("  PADDING ");
                self.text.push_number(padding.len as u64);
                if padding.len > 0 {
                    self.text.push(" ");
                    self.text.push_padding(padding);
                }
                self.text.push("\n");
            }
        }
    }
}

impl Pairs<'_> {
    fn packets(&mut self, packets: &[Packet], way: Way) {
        self.0.push("\"packets\":[");
        for packet in packets {
            self.0.push("{");
            if let Body::Kept(bits) = &packet.body {
                self.0.push("\"data\":\"");
                self.0.push_bits(bits);
                self.0.push("\",");
            }
            if way == Way::ToTrain && !matches!(packet.body, Body::Marker(_)) {
                self.0.push("\"dir\":");
                self.0.push_number(packet.dir.into());
                self.0.push(",");
            }
            if !matches!(packet.body, Body::Kept(_)) {
                self.0.push("\"fields\":[");
                packet.body.send(self);
                self.0.end_list();
                self.0.push(",");
            }
            self.0.push("\"nid\":");
            self.0.push_number(packet.nid.into());
            self.0.push("},");
        }
        self.0.end_list();
    }

    pub fn telegram(&mut self, telegram: &Telegram, kind: Kind) {
        self.0.push("{\"fill\":\"");
        self.0.push_bits(&telegram.fill);
        self.0.push("\",\"header\":[");
        telegram.header.send(self);
        self.0.end_list();
        self.0.push(",\"kind\":\"");
        self.0.push(kind.name());
        self.0.push("\",");
        self.packets(&telegram.packets, Way::ToTrain);
        self.0.push("}\n");
    }

    pub fn message(&mut self, message: &Message, kind: Kind, way: Way) {
        match &message.content {
            Content::Kept(bits) => {
                self.0.push("{\"data\":\"");
                self.0.push_bits(bits);
                self.0.push("\",\"kind\":\"");
                self.0.push(kind.name());
                self.0.push("\",\"nid\":");
                self.0.push_number(message.nid.into());
            }
            Content::Typed { start: Start { t_train, head, own }, packets, padding } => {
                self.0.push("{\"fields\":[");
                own.send(self);
                self.0.end_list();
                self.0.push(",\"header\":[");
                self.put(T_TRAIN, *t_train);
                head.send(self);
                self.0.end_list();
                self.0.push(",\"kind\":\"");
                self.0.push(kind.name());
                self.0.push("\",\"nid\":");
                self.0.push_number(message.nid.into());
                self.0.push(",");
                self.packets(packets, way);
                self.0.push(",\"padding\":\"");
                self.0.push_padding(padding);
                self.0.push("\"");
            }
        }
        self.0.push("}\n");
    }
}

impl Spelling<'_> {
    fn kept_value(&mut self, bits: &Kept) {
        let rest = bits.len as u32 % 64;
        let whole = bits.len / 64;
        for word in &bits.words[..whole] {
            self.put_word(*word);
        }
        if let [last] = bits.words[whole..] {
            let last = last >> (64 - rest);
            if rest > 32 {
                self.put_bits(rest - 32, last >> 32);
            }
            self.put_bits(rest.min(32), last & 0xFFFF_FFFF);
        }
    }

    fn packets(&mut self, packets: &[Packet], way: Way) {
        for packet in packets {
            self.put(NID_PACKET, packet.nid);
            if !matches!(packet.body, Body::Marker(_)) {
                if way == Way::ToTrain {
                    self.put(Q_DIR, packet.dir);
                }
                self.put(L_PACKET, packet.length);
            }
            match &packet.body {
                Body::Kept(bits) => self.kept_value(bits),
                body => body.send(self),
            }
        }
    }

    pub fn telegram(&mut self, telegram: &Telegram, kind: Kind) {
        telegram.header.send(self);
        self.packets(&telegram.packets, Way::ToTrain);
        self.put_bits(8, 255);
        self.kept_value(&telegram.fill);
        self.put_bits(if kind == Kind::Short { 6 } else { 2 }, 0);
        self.write_bytes();
    }

    pub fn message(&mut self, message: &Message, way: Way) {
        self.put(NID_MESSAGE, message.nid);
        self.put(L_MESSAGE, message.length);
        match &message.content {
            Content::Kept(bits) => self.kept_value(bits),
            Content::Typed { start: Start { t_train, head, own }, packets, padding } => {
                self.put(T_TRAIN, *t_train);
                head.send(self);
                own.send(self);
                self.packets(packets, way);
                self.put_bits(padding.len as u32, u64::from(padding.top) >> (8 - padding.len));
            }
        }
        if self.taken > 0 {
            self.write_bytes();
        }
    }
}
