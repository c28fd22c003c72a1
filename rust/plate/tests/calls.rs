//! The calls on the lines that the second program made, compared with what it expects.

use plate::{numbers, Reader, Refused};
use std::fmt::Write;
use std::fs::read_to_string;
use std::path::Path;

struct Fields<'a>(std::str::Split<'a, char>);

impl Fields<'_> {
    fn field(&mut self) -> &str {
        self.0.next().expect("a field")
    }

    fn number(&mut self) -> u64 {
        self.field().parse().expect("a number")
    }

    fn size(&mut self) -> usize {
        self.number() as usize
    }

    fn cells(&mut self) -> Vec<u8> {
        let text = self.field();
        let mut cells = Vec::new();
        let mut rest = if text == "-" { "" } else { text };
        while let Some(first) = rest.chars().next() {
            let (value, used) = match first {
                'x' => (u8::from_str_radix(&rest[1..3], 16).expect("two hex digits"), 3),
                digit => (digit as u8 - b'0', 1),
            };
            cells.push(value);
            rest = &rest[used..];
        }
        cells
    }

    fn reader(&mut self) -> Reader {
        Reader {
            n: self.size(),
            g: self.number(),
            rule: self.number(),
            clocks: self.size(),
            mended: self.number(),
            stages: self.cells().try_into().expect("32 stages"),
            cells: self.cells().try_into().expect("63 cells"),
        }
    }
}

fn shown(cells: &[u8]) -> String {
    if cells.is_empty() {
        return "-".to_string();
    }
    cells.iter().fold(String::new(), |mut text, cell| {
        match cell {
            0 | 1 => write!(text, "{cell}").unwrap(),
            other => write!(text, "x{other:02x}").unwrap(),
        }
        text
    })
}

fn shown_reader(r: &Reader) -> String {
    format!("{} {} {} {} {} {} {}", r.n, r.g, r.rule, r.clocks, r.mended, shown(&r.stages), shown(&r.cells))
}

/// The number and a value, 0 beside a refusal.
fn with_value(result: Result<u64, Refused>) -> String {
    match result {
        Ok(value) => format!("0 {value}"),
        Err(Refused(number)) => format!("{number} 0"),
    }
}

fn number(result: Result<(), Refused>) -> u64 {
    result.err().map_or(0, |Refused(number)| number)
}

const NOTHING: Reader = Reader { n: 0, g: 0, rule: 0, clocks: 0, mended: 0, stages: [0; 32], cells: [0; 63] };

fn call(line: &str) -> String {
    let mut f = Fields(line.split(' '));
    match f.field() {
        "D" => {
            let (divisor, dividend, mut quotient) = (f.number(), f.cells(), f.cells());
            let x = plate::divide(&dividend, divisor, &mut quotient);
            format!("{} {}", with_value(x), shown(&quotient))
        }
        "L" => {
            let divisor = f.number();
            with_value(plate::remainder_low(&f.cells(), divisor))
        }
        "H" => {
            let divisor = f.number();
            with_value(plate::remainder_high(&f.cells(), divisor))
        }
        letter @ ("S" | "P") => {
            let encode = if letter == "S" { plate::encode_systematic } else { plate::encode_product };
            let (n, g, message, mut word) = (f.size(), f.number(), f.cells(), f.cells());
            let x = encode(n, g, &message, &mut word);
            format!("{} {}", number(x), shown(&word))
        }
        "R" => {
            let (n, g) = (f.size(), f.number());
            with_value(plate::remainder(n, g, &f.cells()))
        }
        letter @ ("M" | "Q" | "W") => {
            let decode = match letter {
                "M" => plate::decode_systematic,
                "Q" => plate::decode_product,
                _ => plate::read,
            };
            let (n, g, rule, word, mut message) = (f.size(), f.number(), f.number(), f.cells(), f.cells());
            let x = decode(n, g, rule, &word, &mut message);
            format!("{} {}", with_value(x), shown(&message))
        }
        "N" => match Reader::start(f.size(), f.number(), f.number()) {
            Ok(reader) => format!("0 {}", shown_reader(&reader)),
            Err(Refused(number)) => format!("{number} {}", shown_reader(&NOTHING)),
        },
        "C" => {
            let reader = f.reader();
            match reader.clock(f.number() as u8) {
                Ok((cell, next)) => format!("0 {cell} {}", shown_reader(&next)),
                Err(Refused(number)) => format!("{number} 0 {}", shown_reader(&reader)),
            }
        }
        "A" => {
            let (reader, mut message) = (f.reader(), f.cells());
            let x = reader.answer(&mut message);
            format!("{} {}", with_value(x), shown(&message))
        }
        "B" => {
            let (n, g, rule, first, second) = (f.size(), f.number(), f.number(), f.cells(), f.cells());
            match plate::better(n, g, rule, &first, &second) {
                Ok(word) => format!("0 {} {}", if std::ptr::eq(word, first.as_slice()) { 1 } else { 2 }, shown(word)),
                Err(Refused(number)) => format!("{number} 0 -"),
            }
        }
        "K" => number(plate::check_code(f.size(), f.number())).to_string(),
        "k" => number(plate::check_rule(f.size(), f.number(), f.number())).to_string(),
        "F" => match plate::family(f.number()) {
            Some(family) => format!("{} {} {}", family.n, family.g, family.pairs as u8),
            None => "0 0 0".to_string(),
        },
        "s" => with_value(numbers::encode_systematic(f.size(), f.number(), f.number())),
        "p" => with_value(numbers::encode_product(f.size(), f.number(), f.number())),
        "r" => with_value(numbers::remainder(f.size(), f.number(), f.number())),
        letter @ ("m" | "q") => {
            let decode = if letter == "m" { numbers::decode_systematic } else { numbers::decode_product };
            match decode(f.size(), f.number(), f.number(), f.number()) {
                Ok((message, mended)) => format!("0 {mended} {message}"),
                Err(Refused(number)) => format!("{number} 0 0"),
            }
        }
        other => panic!("no call {other}"),
    }
}

#[test]
fn calls_are_as_the_second_program_expects() {
    let folder = Path::new(env!("CARGO_MANIFEST_DIR")).join("../../crates/calls");
    let lines = read_to_string(folder.join("stdin")).expect("crates/calls/stdin");
    let expected = read_to_string(folder.join("stdout")).expect("crates/calls/stdout");
    assert_eq!(lines.lines().count(), expected.lines().count());
    for (line, result) in lines.lines().zip(expected.lines()) {
        assert_eq!(call(line), result, "{line}");
    }
}
