//! Standard input, and the items that come from it.

use crate::text::{HEXADECIMAL, KEPT, MOST};
use crate::values::Kind;
use std::arch::x86_64::*;
use std::io::{self, Read};

/// The value of each hexadecimal digit, and 255 for every other byte.
pub static DIGITS: [u8; 256] = digit_values();

const fn digit_values() -> [u8; 256] {
    let mut values = [255; 256];
    let mut value = 0;
    while value < 16 {
        values[HEXADECIMAL[value] as usize] = value as u8;
        values[HEXADECIMAL[value].to_ascii_lowercase() as usize] = value as u8;
        value += 1;
    }
    values
}

/// The bytes of sixteen digits, and how many of these characters are digits up to the first other one.
#[inline(always)]
fn bytes_of(digits: &[u8; 16]) -> ([u8; 8], usize) {
    let mut bytes = [0; 8];
    // SAFETY: there are 16 bytes to read and 8 to write, and every x86-64 has SSE2
    let are_digits = unsafe {
        let these = _mm_loadu_si128(digits.as_ptr().cast());
        let decimal = _mm_sub_epi8(these, _mm_set1_epi8(b'0' as i8));
        let is_decimal = _mm_cmpeq_epi8(_mm_min_epu8(decimal, _mm_set1_epi8(9)), decimal);
        let letter = _mm_sub_epi8(_mm_or_si128(these, _mm_set1_epi8(0x20)), _mm_set1_epi8(b'a' as i8));
        let is_letter = _mm_cmpeq_epi8(_mm_min_epu8(letter, _mm_set1_epi8(5)), letter);
        let of_letter = _mm_and_si128(is_letter, _mm_add_epi8(letter, _mm_set1_epi8(10)));
        let values = _mm_or_si128(_mm_and_si128(is_decimal, decimal), of_letter);
        let pairs = _mm_or_si128(_mm_slli_epi16(values, 4), _mm_srli_epi16(values, 8));
        let packed = _mm_packus_epi16(_mm_and_si128(pairs, _mm_set1_epi16(0xFF)), pairs);
        _mm_storel_epi64(bytes.as_mut_ptr().cast(), packed);
        _mm_movemask_epi8(_mm_or_si128(is_decimal, is_letter))
    };
    (bytes, are_digits.trailing_ones() as usize)
}

/// The largest number of bytes in a line of digits.
const LINE: usize = 2048;
/// What may be read after an item.
const SLACK: usize = 64;

#[derive(Clone, Copy, PartialEq, Eq)]
pub enum Form {
    Bin,
    Hex,
    Json,
}

/// What comes next on standard input.
pub enum Next<T> {
    Item(T),
    End,
    Refused,
}

/// How far standard input was read.
#[derive(Clone, Copy, PartialEq, Eq)]
enum Reached {
    Middle,
    End,
    BadLine,
}

/// Standard input: bytes or JSON that were read, of which those from `start` to `end` are still to be decoded.
pub struct Input {
    form: Form,
    /// Whether digits are decoded sixteen at a time.
    by_sixteen: bool,
    reached: Reached,
    bytes: Vec<u8>,
    start: usize,
    end: usize,
    /// Lines of digits that were read: `text_len` bytes of them.
    text: Vec<u8>,
    text_len: usize,
    /// How many bytes of a line of digits that isn't ended yet are after `end`.
    line: usize,
}

impl Input {
    pub fn new(form: Form, by_sixteen: bool) -> Input {
        let room = if form == Form::Json { KEPT + MOST } else { KEPT };
        Input {
            form,
            by_sixteen,
            reached: Reached::Middle,
            bytes: vec![0; room + SLACK],
            start: 0,
            end: 0,
            text: vec![0; KEPT + SLACK],
            text_len: 0,
            line: 0,
        }
    }

    /// What is read from the next bytes, of which as many as are said belong to an item of this kind.
    #[inline(always)]
    pub fn next_of_bytes<T>(
        &mut self,
        kind: Kind,
        mut read: impl FnMut(&[u8], usize) -> Option<T>,
    ) -> io::Result<Next<T>> {
        self.next(|input| {
            let len = kind.bytes(&input.bytes[input.start..input.end]);
            if len > input.end - input.start {
                return None;
            }
            let item = read(&input.bytes[input.start..], len);
            input.start += len;
            Some(item.map_or(Next::Refused, Next::Item))
        })
    }

    /// What is read from the next line of JSON, and how many bytes the line has. A line that isn't whole may be read
    /// together with bytes that were there before.
    #[inline(always)]
    pub fn next_of_lines<T>(&mut self, mut read: impl FnMut(&[u8]) -> Option<(T, usize)>) -> io::Result<Next<T>> {
        self.next(|input| match read(&input.bytes[input.start..]) {
            Some((item, len)) if len <= input.end - input.start => {
                input.start += len;
                Some(Next::Item(item))
            }
            _ => input.bytes[input.start..input.end].contains(&b'\n').then_some(Next::Refused),
        })
    }

    /// What is answered to the bytes that are there, as soon as they are enough.
    #[inline(always)]
    fn next<T>(&mut self, mut answer: impl FnMut(&mut Input) -> Option<Next<T>>) -> io::Result<Next<T>> {
        loop {
            if let Some(next) = answer(self) {
                return Ok(next);
            }
            match self.reached {
                Reached::Middle => self.fill()?,
                Reached::End if self.start == self.end => return Ok(Next::End),
                Reached::End | Reached::BadLine => return Ok(Next::Refused),
            }
        }
    }

    /// Moves what is left to the front, and reads more after it.
    fn fill(&mut self) -> io::Result<()> {
        self.bytes.copy_within(self.start..self.end + self.line, 0);
        self.end -= self.start;
        self.start = 0;
        let (place, len) = if self.form == Form::Hex {
            (&mut self.text, &mut self.text_len)
        } else {
            (&mut self.bytes, &mut self.end)
        };
        let room = if self.form == Form::Json { KEPT + MOST } else { KEPT };
        let taken = io::stdin().lock().read(&mut place[*len..room])?;
        *len += taken;
        if taken == 0 {
            self.reached = Reached::End;
        }
        match self.form {
            Form::Bin => {}
            Form::Hex => self.decode(),
            Form::Json => self.end_line(),
        }
        Ok(())
    }

    /// Gives the last line the end that it may lack.
    fn end_line(&mut self) {
        if self.reached == Reached::End && self.end > 0 && self.bytes[self.end - 1] != b'\n' {
            self.bytes[self.end] = b'\n';
            self.end += 1;
        }
    }

    /// Decodes the pairs of digits that are there, for which there is always room. No byte of a bad line counts.
    fn decode(&mut self) {
        let mut at = 0;
        loop {
            let count = if self.by_sixteen { self.decode_by_sixteen(at) } else { self.decode_by_pair(at) };
            at += 2 * count;
            self.line += count;
            let ended = match self.text[at..self.text_len] {
                [b'\n', ..] => 1,
                [b'\r', b'\n', ..] => 2,
                _ => 0,
            };
            if ended == 0 || self.line > LINE {
                break;
            }
            at += ended;
            self.end += self.line;
            self.line = 0;
        }
        // a last character waits for the next
        let left = self.text_len - at;
        if self.line > LINE || left > 1 || left == 1 && self.reached == Reached::End {
            self.reached = Reached::BadLine;
        } else if self.reached == Reached::End {
            self.end += self.line;
            self.line = 0;
        }
        self.text.copy_within(at..at + left, 0);
        self.text_len = left;
    }

    /// Decodes the pairs of digits from there up to what is none, and returns how many they are.
    #[inline(always)]
    fn decode_by_pair(&mut self, at: usize) -> usize {
        let mut count = 0;
        let bytes = &mut self.bytes[self.end + self.line..KEPT];
        for (pair, byte) in self.text[at..self.text_len].chunks_exact(2).zip(bytes) {
            let (high, low) = (DIGITS[usize::from(pair[0])], DIGITS[usize::from(pair[1])]);
            if high | low > 15 {
                break;
            }
            *byte = high << 4 | low;
            count += 1;
        }
        count
    }

    /// The same sixteen digits at a time.
    #[inline(always)]
    fn decode_by_sixteen(&mut self, at: usize) -> usize {
        let mut count = 0;
        loop {
            let at = at + 2 * count;
            let (bytes, digits) = bytes_of(self.text[at..].first_chunk().unwrap());
            let whole = digits.min(self.text_len - at) / 2;
            self.bytes[self.end + self.line + count..][..8].copy_from_slice(&bytes);
            count += whole;
            if whole < 8 {
                return count;
            }
        }
    }
}
