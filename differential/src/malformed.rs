//! Lines that cannot be read: every form of refusal 11, and some texts close
//! to it that can.

use crate::first_lines::with_other_letter;
use crate::heading::header;
use crate::random::Random;
use crate::values;

/// Bytes close to those a book is made of.
pub const NEAR: &[u8] = b"\t\t\n\n\r DCGSdcgsM0123456789019/:-+.,xXe_\x00\x0b\x0c\x7f\x80\xc2\xff";

type Form = fn(&mut Random, &mut Vec<u8>);

/// Spoils a line that has its line feed. A line that opens a deal still begins
/// with D and a tab in most cases.
pub fn malform(random: &mut Random, line: &mut Vec<u8>) {
    let opens = crate::line::opens_deal(line);
    let form = match opens && random.percent(85) {
        true => random.pick(WITHIN),
        false => random.pick(ANY),
    };
    form(random, line);
}

const WITHIN: &[Form] = &[
    bad_number,
    bad_number,
    bad_number,
    field_count,
    separator,
    line_end,
    byte,
];
const ANY: &[Form] = &[
    other_letter,
    letter,
    letter,
    bad_number,
    bad_number,
    bad_number,
    field_count,
    separator,
    line_end,
    byte,
];

fn letter(random: &mut Random, line: &mut Vec<u8>) {
    match random.below(8) {
        0 => line[0] = random.pick(b"ABEFHKZdcgs0 \tM"),
        1 => *line = b"\n".to_vec(),
        2 => *line = header(values::edition(random)).to_vec(),
        3 => *line = [line[0], b'\n'].to_vec(),
        4 => line.insert(0, random.pick(b" \tDCGS\xef")),
        5 => line[0] = random.pick(b"DCGS"),
        6 => drop(line.remove(0)),
        _ => line[1] = random.pick(b" ,;D0"),
    }
}

/// A line G as if it were S, or the other way round.
fn other_letter(random: &mut Random, line: &mut Vec<u8>) {
    match with_other_letter(line) {
        Some(other) => *line = other,
        None => letter(random, line),
    }
}

/// The fields of a line, the letter first, without the line feed.
fn fields(line: &[u8]) -> Vec<Vec<u8>> {
    let line = line.strip_suffix(b"\n").unwrap_or(line);
    line.split(|byte| *byte == b'\t')
        .map(<[u8]>::to_vec)
        .collect()
}

fn joined(fields: &[Vec<u8>]) -> Vec<u8> {
    let mut line = fields.join(&b'\t');
    line.push(b'\n');
    line
}

fn bad_number(random: &mut Random, line: &mut Vec<u8>) {
    let mut fields = fields(line);
    let place = random.between(1, fields.len() as u64 - 1) as usize;
    let field = &mut fields[place];
    match random.below(14) {
        0 => field.clear(),
        1 => field.insert(0, b'0'),
        2 => *field = b"00".to_vec(),
        3 => *field = b"10000000000000".to_vec(),
        4 => *field = vec![b'9'; random.between(13, 40) as usize],
        5 => *field = [vec![b'0'; 13 - field.len().min(12)], field.clone()].concat(),
        6 => field.insert(0, random.pick(b"+- '")),
        7 => field.push(random.pick(b" .,\r/:lO\x00\xb9")),
        8 => {
            let place = random.index(field.len());
            field[place] = random.pick(b"/:abeO.\x00\xff");
        }
        9 => *field = b"0x10".to_vec(),
        10 => field.extend_from_slice(b".0"),
        11 => *field = b"18446744073709551616".to_vec(),
        12 => *field = b"18446744073709551617".to_vec(),
        _ => *field = "\u{0661}".as_bytes().to_vec(),
    }
    *line = joined(&fields);
}

fn field_count(random: &mut Random, line: &mut Vec<u8>) {
    let mut fields = fields(line);
    match random.below(6) {
        0 => drop(fields.pop()),
        1 => fields.push(b"1".to_vec()),
        2 => fields.push(Vec::new()),
        3 => fields.truncate(random.between(1, fields.len() as u64 - 1) as usize),
        4 => drop(fields.remove(random.between(1, fields.len() as u64 - 1) as usize)),
        _ => fields.extend_from_within(1..),
    }
    *line = joined(&fields);
}

fn separator(random: &mut Random, line: &mut Vec<u8>) {
    let tabs: Vec<usize> = (2..line.len()).filter(|at| line[*at] == b'\t').collect();
    let Some(at) = (!tabs.is_empty()).then(|| random.pick(&tabs)) else {
        return;
    };
    match random.below(4) {
        0 => line.insert(at, b'\t'),
        1 => line[at] = random.pick(b" ,;|\x0b"),
        2 => line.insert(at + random.index(2), b' '),
        _ => drop(line.remove(at)),
    }
}

fn line_end(random: &mut Random, line: &mut Vec<u8>) {
    let end = line.len() - 1;
    match random.below(5) {
        0 => line.insert(end, b'\r'),
        1 => line.insert(end, b' '),
        2 => line.insert(end, b'\t'),
        // The next line, if there is one, joins this one.
        3 => drop(line.pop()),
        _ => line[end] = random.pick(b"\r\x0b\x0c\x00"),
    }
}

fn byte(random: &mut Random, line: &mut Vec<u8>) {
    let at = 2 + random.index(line.len() - 2);
    match random.below(3) {
        0 => drop(line.remove(at)),
        1 => line.insert(at, random.pick(NEAR)),
        _ => line[at] = random.pick(NEAR),
    }
}

#[cfg(test)]
mod tests {
    use super::*;
    use crate::deal::deal;

    #[test]
    fn every_form_takes_every_line() {
        for number in 0..5000 {
            let mut random = Random::new(3, number);
            let edition = number % 3 + 1;
            for line in deal(&mut random, edition) {
                malform(&mut random, &mut line.text(edition));
            }
        }
    }
}
