//! The oracle: one query a line in, one answer a line out (README.md has the queries).
use bilrost::Blob;
use std::fmt::{Debug, Write as _};
use std::io::{stdin, stdout, BufRead, BufReader, BufWriter, Write};
use std::panic::{catch_unwind, set_hook};
use std::str::{FromStr, SplitAsciiWhitespace};

fn main() -> std::io::Result<()> {
    set_hook(Box::new(|_| {}));
    let mut input = BufReader::with_capacity(1 << 16, stdin().lock());
    let mut output = BufWriter::with_capacity(1 << 16, stdout().lock());
    let mut line = String::new();
    loop {
        line.clear();
        if input.read_line(&mut line)? == 0 {
            return output.flush();
        }
        writeln!(output, "{}", answer_all(&line))?;
        // Answer at once when no further query is waiting.
        if input.buffer().is_empty() {
            output.flush()?;
        }
    }
}

/// `sweep QUERY` answers the query 256 times, with each byte from 00 to FF put behind it.
fn answer_all(line: &str) -> String {
    match line.strip_prefix("sweep ") {
        None => answer(line),
        Some(query) => {
            let query = query.trim_end_matches(['\r', '\n']);
            let answers = (0..=255).map(|last| answer(&format!("{query}{last:02X}")));
            answers.collect::<Vec<_>>().join(";")
        }
    }
}

/// `BAD` if the line is no query, `PANIC` where the Rust panics.
fn answer(line: &str) -> String {
    match catch_unwind(|| query(&mut line.split_ascii_whitespace())) {
        Ok(answer) => answer.unwrap_or_else(|| "BAD".to_string()),
        Err(_) => "PANIC".to_string(),
    }
}

type Words<'a> = SplitAsciiWhitespace<'a>;

fn query(w: &mut Words) -> Option<String> {
    let out = match w.next()? {
        "dump" => {
            let s = bytes(w)?;
            message(&s, 0, s.len(), show_shown)
        }
        "read" => {
            let (start, end, s) = (number(w)?, number(w)?, bytes(w)?);
            inside(&s, start, end)?;
            message(&s, start, end, show_record)
        }
        "left" => {
            let (start, end, s) = (number(w)?, number(w)?, bytes(w)?);
            inside(&s, start, end)?;
            let (res, fields) = Blob::left(&s, start, end);
            let mut out = res.map_or_else(no, |()| "OK".to_string());
            write!(out, " {}", fields.len()).ok()?;
            for (tag, kind, mut field) in fields {
                if kind == 0 {
                    field.reverse();
                }
                write!(out, " F {tag} {kind} {}", hex(&field)).ok()?;
            }
            out
        }
        "varint" => {
            let (at, s): (usize, _) = (number(w)?, bytes(w)?);
            inside(&s, at, 0)?;
            pair(Blob::varint(&s, at))
        }
        "delim" => {
            let (at, s): (usize, _) = (number(w)?, bytes(w)?);
            inside(&s, at, 0)?;
            pair(Blob::delimiter(&s, at))
        }
        "capvarint" => {
            let (at, end, s) = (number(w)?, number(w)?, bytes(w)?);
            inside(&s, at, end)?;
            pair(Blob::capped_varint(&s, at, end))
        }
        "key" => {
            let (at, end, last, s) = (number(w)?, number(w)?, number(w)?, bytes(w)?);
            inside(&s, at, end)?;
            Blob::key(&s, at, end, last)
                .map_or_else(no, |(tag, kind, next)| format!("OK {tag} {kind} {next}"))
        }
        "value" => {
            let (kind, at, end, s) = (wire_type(w)?, number(w)?, number(w)?, bytes(w)?);
            inside(&s, at, end)?;
            Blob::value(&s, at, end, kind).map_or_else(no, |([_, value, len], next)| {
                format!("OK {value} {len} {next}")
            })
        }
        "step" => {
            let (at, end, last, s) = (number(w)?, number(w)?, number(w)?, bytes(w)?);
            inside(&s, at, end)?;
            match Blob::step(&s, at, end, last) {
                Ok(None) => "OK END".to_string(),
                Ok(Some((record, next))) => format!("OK{} {next}", show_record(&s, record)),
                Err(name) => no(name),
            }
        }
        "skip" => {
            let (kind, at, end, s) = (wire_type(w)?, number(w)?, number(w)?, bytes(w)?);
            inside(&s, at, end)?;
            Blob::skip(&s, at, end, kind).map_or_else(no, |next| format!("OK {next}"))
        }
        "index" => {
            let (tag, s) = (number(w)?, bytes(w)?);
            Blob::index(&s, tag).map_or_else(no, |values| {
                values
                    .iter()
                    .fold("OK".to_string(), |out, [kind, value, len]| {
                        format!("{out} {kind} {value} {len}")
                    })
            })
        }
        "enc" => {
            let mut source = Vec::new();
            let records: Option<Vec<_>> = w.map(|word| record(word, &mut source)).collect();
            written(Blob::write(&source, &records?))
        }
        "packed" => {
            let mut source = Vec::new();
            let records: Option<Vec<_>> = w
                .map(|word| record(&format!("0:{word}"), &mut source))
                .collect();
            hex(&Blob::packed(&source, &records?))
        }
        "varintenc" => written(Blob::write_varint(number(w)?)),
        "keyenc" => written(Blob::write_key(number(w)?, number(w)?, wire_type(w)?)),
        "len" => Blob::varint_len(number(w)?).to_string(),
        "i64" => Blob::to_unsigned(number(w)?).to_string(),
        "u64" => Blob::to_signed(number(w)?).to_string(),
        _ => return None,
    };
    w.next().is_none().then_some(out)
}

// ---- Answers ----

fn message(s: &[u8], start: usize, end: usize, show: fn(&[u8], [u64; 4]) -> String) -> String {
    if !Blob::copies_agree(s, start, end) {
        return "COPIES DIFFER".to_string();
    }
    match Blob::read(s, start, end) {
        Err((name, place)) => format!("{} {place}", no(name)),
        Ok((records, place)) => {
            let mut out = format!("OK {place} {}", records.len());
            out.extend(records.iter().map(|&record| show(s, record)));
            out
        }
    }
}

fn show_record(_: &[u8], [tag, kind, value, len]: [u64; 4]) -> String {
    format!(" {tag} {kind} {value} {len}")
}

/// As the dump program shows it.
fn show_shown(s: &[u8], [tag, kind, value, len]: [u64; 4]) -> String {
    let shown = match kind {
        0 => format!("{value:016X}"),
        1 => hex(&s[value as usize..][..len as usize]),
        _ => hex(&value.to_le_bytes()[..len as usize]),
    };
    format!(" F {tag} {kind} {shown}")
}

fn pair<E: Debug>(answer: Result<(u64, usize), E>) -> String {
    answer.map_or_else(no, |(value, next)| format!("OK {value} {next}"))
}

fn written((forward, prepended, len): (Vec<u8>, Vec<u8>, usize)) -> String {
    format!(
        "forward {} prepended {} len {len}",
        hex(&forward),
        hex(&prepended)
    )
}

fn no(name: impl Debug) -> String {
    format!("NO {name:?}")
}

fn hex(bytes: &[u8]) -> String {
    if bytes.is_empty() {
        return "-".to_string();
    }
    bytes.iter().map(|byte| format!("{byte:02X}")).collect()
}

// ---- Words of a query ----

fn number<T: FromStr>(w: &mut Words) -> Option<T> {
    w.next()?.parse().ok()
}

fn wire_type(w: &mut Words) -> Option<u8> {
    number(w).filter(|&n| n < 4)
}

fn bytes(w: &mut Words) -> Option<Vec<u8>> {
    unhex(w.next().unwrap_or("-"))
}

fn inside(s: &[u8], start: usize, end: usize) -> Option<()> {
    (start <= s.len() && end <= s.len()).then_some(())
}

fn unhex(word: &str) -> Option<Vec<u8>> {
    if word == "-" {
        return Some(Vec::new());
    }
    if !word.is_ascii() || word.len() % 2 != 0 {
        return None;
    }
    let byte = |at| u8::from_str_radix(word.get(at..at + 2)?, 16).ok();
    (0..word.len()).step_by(2).map(byte).collect()
}

/// `TAG:TYPE:VALUE`, a varint's value decimal, other bytes hexadecimal: a record, whose payload is
/// put behind the source.
fn record(word: &str, source: &mut Vec<u8>) -> Option<[u64; 4]> {
    let (tag, rest) = word.split_once(':')?;
    let (kind, value) = rest.split_once(':')?;
    let tag = tag.parse::<u32>().ok()?.into();
    if kind == "0" {
        return Some([tag, 0, value.parse().ok()?, 0]);
    }
    let payload = unhex(value)?;
    let fixed = |bytes: &[u8]| {
        bytes
            .iter()
            .rev()
            .fold(0, |n, &byte| n << 8 | u64::from(byte))
    };
    Some(match (kind, payload.len()) {
        ("1", len) => {
            let start = source.len();
            source.extend(payload);
            [tag, 1, start as u64, len as u64]
        }
        ("2", 4) => [tag, 2, fixed(&payload), 4],
        ("3", 8) => [tag, 3, fixed(&payload), 8],
        _ => return None,
    })
}
