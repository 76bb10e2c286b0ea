//! Two plain decoders, written by hand for speed: what the program is measured beside (see ../README.md).
//!
//!     plain [--no-values] check|show|convert --kind short|long|radio|train [--from bin|hex|json] [--to bin|hex|json]
//!
//! It decodes each item of standard input to values of its own, checks all that the language demands, and
//! writes from the values what the program writes. With `--no-values` it only checks, and writes what it reads at
//! once, or copies what was checked. If the input is refused it says `refused`, and stops: it names no bit and no
//! variable. A packet and a message keep the length that was read besides the rest. It accepts only lines of JSON
//! that are as the program writes them.

mod bits;
mod input;
mod json;
mod sent;
mod text;
mod values;
mod variables;

use input::{Form, Input, Next};
use sent::Nothing;
use std::env;
use std::io;
use std::process::ExitCode;
use text::{Lines, Pairs, Spelling, Text, KEPT};
use values::{Item, Kind};

const USAGE: &str = "plain [--no-values] check|show|convert --kind short|long|radio|train [--from bin|hex|json] \
                     [--to bin|hex|json]";

#[derive(Clone, Copy, PartialEq, Eq)]
enum Command {
    Check,
    Show,
    Bin,
    Hex,
    Json,
}

impl Item {
    fn bits(&self, kind: Kind) -> usize {
        match self {
            Item::Telegram(_) => kind.user_bits(),
            Item::Message(message, _) => 8 * usize::from(message.length),
        }
    }

    fn spell(&self, kind: Kind, text: &mut Text) {
        let mut spelling = Spelling::new(text);
        match self {
            Item::Telegram(telegram) => spelling.telegram(telegram, kind),
            Item::Message(message, way) => spelling.message(message, *way),
        }
    }

    /// Writes what the command says about the item of this number.
    fn write(&self, command: Command, kind: Kind, number: u64, text: &mut Text, spelled: &mut Text) {
        match command {
            Command::Check => text.push_accepted(number, self.bits(kind)),
            Command::Show => {
                let mut lines = Lines::new(text);
                lines.item(number, kind, self.bits(kind));
                match self {
                    Item::Telegram(telegram) => lines.telegram(telegram),
                    Item::Message(message, way) => lines.message(message, *way),
                }
            }
            Command::Bin => self.spell(kind, text),
            Command::Hex => {
                spelled.len = 0;
                self.spell(kind, spelled);
                text.push_hexadecimal(&spelled.bytes[..spelled.len]);
                text.push("\n");
            }
            Command::Json => match self {
                Item::Telegram(telegram) => Pairs(text).telegram(telegram, kind),
                Item::Message(message, way) => Pairs(text).message(message, kind, *way),
            },
        }
    }
}

/// Writes what the command says about an item that is read from bytes without values, and returns whether it is one.
#[inline(always)]
fn write_bytes(command: Command, kind: Kind, number: u64, (bytes, len): (&[u8], usize), text: &mut Text) -> Option<()> {
    let bits = if kind.way().is_none() { kind.user_bits() } else { 8 * len };
    match command {
        Command::Check => {
            bits::send(bytes, kind, &mut Nothing)?;
            text.push_accepted(number, bits);
        }
        Command::Show => {
            let mut lines = Lines::new(text);
            lines.item(number, kind, bits);
            bits::send(bytes, kind, &mut lines)?;
        }
        Command::Bin => {
            bits::send(bytes, kind, &mut Nothing)?;
            text.push_bytes(&bytes[..len]);
        }
        Command::Hex => {
            bits::send(bytes, kind, &mut Nothing)?;
            text.push_hexadecimal_by_sixteen(bytes, len);
            text.push("\n");
        }
        Command::Json => bits::send(bytes, kind, &mut Pairs(text))?,
    }
    Some(())
}

/// Writes what the command says about an item that is read from a line of JSON without values, and returns how many
/// bytes the line has.
#[inline(always)]
fn write_line(
    command: Command,
    kind: Kind,
    number: u64,
    line: &[u8],
    text: &mut Text,
    spelled: &mut Text,
) -> Option<usize> {
    match command {
        Command::Check => {
            let (bits, len) = json::send(line, kind, &mut Nothing)?;
            text.push_accepted(number, bits);
            Some(len)
        }
        Command::Show => {
            let known = if kind.way().is_none() { kind.user_bits() } else { 0 };
            let mut lines = Lines::new(text);
            lines.item(number, kind, known);
            let (bits, len) = json::send(line, kind, &mut lines)?;
            if bits != known {
                lines.set_bits(bits);
            }
            Some(len)
        }
        Command::Bin => Some(json::send(line, kind, &mut Spelling::new(text))?.1),
        Command::Hex => {
            spelled.len = 0;
            let (_, len) = json::send(line, kind, &mut Spelling::new(spelled))?;
            text.push_hexadecimal_by_sixteen(&spelled.bytes[..], spelled.len);
            text.push("\n");
            Some(len)
        }
        // an item has one spelling, and only that is read
        Command::Json => {
            let (_, len) = json::send(line, kind, &mut Nothing)?;
            text.push_bytes(&line[..len]);
            Some(len)
        }
    }
}

/// Writes what the command says about each item that comes, and returns whether all of the input was accepted.
fn run(command: Command, kind: Kind, mut next: impl FnMut() -> io::Result<Next<Item>>) -> io::Result<bool> {
    let mut text = Text::new();
    let mut spelled = Text::new();
    let mut number = 0;
    let accepted = loop {
        let item = match next()? {
            Next::Item(item) => item,
            Next::End => break true,
            Next::Refused => break false,
        };
        number += 1;
        if number > 1_000_000 {
            break false;
        }
        item.write(command, kind, number, &mut text, &mut spelled);
        if text.len > KEPT {
            text.write_out()?;
        }
    };
    text.write_out()?;
    Ok(accepted)
}

/// The same without values: `next` writes what it reads.
#[inline(always)]
fn run_without(mut next: impl FnMut(u64, &mut Text) -> io::Result<Next<()>>) -> io::Result<bool> {
    let mut text = Text::new();
    let mut number = 0;
    let accepted = loop {
        let start = text.len;
        match next(number + 1, &mut text)? {
            Next::Item(()) if number < 1_000_000 => number += 1,
            last => {
                // something may be written of what is no item
                text.len = start;
                break matches!(last, Next::End);
            }
        }
        if text.len > KEPT {
            text.write_out()?;
        }
    };
    text.write_out()?;
    Ok(accepted)
}

/// Runs the command over the items of an input.
fn run_over(mut input: Input, command: Command, kind: Kind, form: Form, makes_values: bool) -> io::Result<bool> {
    match (makes_values, form) {
        (true, Form::Json) => run(command, kind, || input.next_of_lines(|line| json::item(line, kind))),
        (true, _) => run(command, kind, || input.next_of_bytes(kind, |bytes, _| bits::item(bytes, kind))),
        (false, Form::Json) => {
            let mut spelled = Text::new();
            run_without(|number, text| {
                let start = text.len;
                input.next_of_lines(|line| {
                    text.len = start;
                    let len = write_line(command, kind, number, line, text, &mut spelled)?;
                    Some(((), len))
                })
            })
        }
        (false, _) => run_without(|number, text| {
            input.next_of_bytes(kind, |bytes, len| write_bytes(command, kind, number, (bytes, len), text))
        }),
    }
}

/// What the words ask for: a command, a kind, and the form of the input.
fn parsed(words: &[String]) -> Option<(Command, Kind, Form)> {
    let (first, options) = words.split_first()?;
    let option = |name: &str| {
        let pair = options.chunks(2).find(|pair| pair[0] == name)?;
        pair.get(1).map(String::as_str)
    };
    let command = match (first.as_str(), option("--to")) {
        ("check", None) => Command::Check,
        ("show", None) => Command::Show,
        ("convert", Some("bin")) => Command::Bin,
        ("convert", Some("hex")) => Command::Hex,
        ("convert", Some("json")) => Command::Json,
        _ => return None,
    };
    let kind = [Kind::Short, Kind::Long, Kind::Radio, Kind::Train]
        .into_iter()
        .find(|kind| Some(kind.name()) == option("--kind"))?;
    let form = match option("--from") {
        None | Some("hex") => Form::Hex,
        Some("bin") => Form::Bin,
        Some("json") => Form::Json,
        Some(_) => return None,
    };
    Some((command, kind, form))
}

fn main() -> ExitCode {
    let mut words: Vec<String> = env::args().skip(1).collect();
    let makes_values = words.first().map(String::as_str) != Some("--no-values");
    if !makes_values {
        words.remove(0);
    }
    let Some((command, kind, form)) = parsed(&words) else {
        eprintln!("{USAGE}");
        return ExitCode::from(2);
    };
    let accepted = run_over(Input::new(form, !makes_values), command, kind, form, makes_values);
    match accepted {
        Ok(true) => ExitCode::SUCCESS,
        Ok(false) => {
            eprintln!("refused");
            ExitCode::from(1)
        }
        Err(fault) => {
            eprintln!("{fault}");
            ExitCode::from(3)
        }
    }
}
