// The keeper program once more, in plain Rust with nothing proved: the same lines in, the same lines
// out. It is what the proved program's rate is measured against.
use std::io::{self, BufRead, BufReader, BufWriter, Write};

const TOP: u64 = 1 << 40;
const MOST_TOTAL: u64 = 4_000_000_000;

#[derive(Clone, Copy, Default, PartialEq)]
struct Round {
    n: u64,
    hub: u64,
    attempt: u64,
}

#[derive(Clone, Copy, Default)]
struct Record {
    promised: Round,
    voted: Round,
    total: u64,
}

struct Head {
    register: u64,
    hub: u64,
    attempt: u64,
}

enum Body {
    Prepare { write: bool },
    PrepareAt(u64),
    Vote(u64, u64),
    Reply,
}

// The number of a refusal or of a fault.
type Refused = u8;

// A number has decimal digits, no sign and no leading zero.
fn number(field: Option<&[u8]>, low: u64, high: u64) -> Result<u64, Refused> {
    let field = field.ok_or(12u8)?;
    if field.is_empty() || (field[0] == b'0' && field.len() > 1) {
        return Err(13);
    }
    let mut n: u64 = 0;
    for b in field {
        if !b.is_ascii_digit() {
            return Err(13);
        }
        n = n.saturating_mul(10).saturating_add(u64::from(b - b'0'));
    }
    if n < low || n > high { Err(14) } else { Ok(n) }
}

fn read_head<'a>(fields: &mut impl Iterator<Item = &'a [u8]>) -> Result<Head, Refused> {
    Ok(Head {
        register: number(fields.next(), 0, 63)?,
        hub: number(fields.next(), 1, 15)?,
        attempt: number(fields.next(), 1, TOP)?,
    })
}

fn read_body<'a>(letter: u8, fields: &mut impl Iterator<Item = &'a [u8]>) -> Result<Body, Refused> {
    match letter {
        b'P' => match fields.next() {
            Some(b"r") => Ok(Body::Prepare { write: false }),
            Some(b"w") => Ok(Body::Prepare { write: true }),
            Some(_) => Err(13),
            None => Err(12),
        },
        b'F' => Ok(Body::PrepareAt(number(fields.next(), 1, TOP)?)),
        b'V' => {
            let n = number(fields.next(), 1, TOP)?;
            Ok(Body::Vote(n, number(fields.next(), 0, MOST_TOTAL)?))
        }
        b'A' => {
            number(fields.next(), 0, 6)?;
            let raised = number(fields.next(), 0, 1)?;
            number(fields.next(), raised, TOP)?;
            number(fields.next(), 0, TOP)?;
            number(fields.next(), 0, 15)?;
            number(fields.next(), 0, TOP)?;
            number(fields.next(), 0, MOST_TOTAL)?;
            Ok(Body::Reply)
        }
        _ => {
            number(fields.next(), 0, 6)?;
            number(fields.next(), 1, TOP)?;
            Ok(Body::Reply)
        }
    }
}

fn read(line: &[u8]) -> Result<(Head, Body), Refused> {
    if line.len() > 1024 || line.last() != Some(&b'\n') {
        return Err(10);
    }
    let mut fields = line[..line.len() - 1].split(|b| *b == b'\t');
    let letter = match fields.next() {
        Some([letter @ (b'P' | b'F' | b'V' | b'A' | b'D')]) => *letter,
        _ => return Err(11),
    };
    let head = read_head(&mut fields)?;
    let body = read_body(letter, &mut fields)?;
    if fields.next().is_some() {
        return Err(12);
    }
    Ok((head, body))
}

enum Reply {
    State { raised: bool, record: Record },
    Voted(u64),
}

fn promise(record: &mut Record, head: &Head, n: u64) -> Reply {
    record.promised = Round { n, hub: head.hub, attempt: head.attempt };
    Reply::State { raised: true, record: *record }
}

fn receive(records: &mut [Record], head: &Head, body: &Body) -> Result<Reply, Refused> {
    if let Body::Reply = body {
        return Err(2);
    }
    let record = records.get_mut(head.register as usize).ok_or(1u8)?;
    match *body {
        Body::Prepare { write: false } => Ok(Reply::State { raised: false, record: *record }),
        Body::Prepare { write: true } if record.promised.n == TOP => Err(4),
        Body::Prepare { write: true } => Ok(promise(record, head, record.promised.n + 1)),
        Body::PrepareAt(n) if n > record.promised.n => Ok(promise(record, head, n)),
        Body::Vote(n, total) => {
            let round = Round { n, hub: head.hub, attempt: head.attempt };
            if n <= record.promised.n && round != record.promised {
                return Err(3);
            }
            *record = Record { promised: round, voted: round, total };
            Ok(Reply::Voted(n))
        }
        _ => Err(3),
    }
}

fn answer(records: &mut [Record], line: &[u8], out: &mut impl Write) -> io::Result<()> {
    let outcome = read(line).and_then(|(head, body)| {
        let reply = receive(records, &head, &body)?;
        Ok((head, reply))
    });
    match outcome {
        Err(number) => writeln!(out, "X\t{number}"),
        Ok((h, Reply::Voted(n))) => {
            writeln!(out, "D\t{}\t{}\t{}\t0\t{}", h.register, h.hub, h.attempt, n)
        }
        Ok((h, Reply::State { raised, record })) => writeln!(
            out,
            "A\t{}\t{}\t{}\t0\t{}\t{}\t{}\t{}\t{}\t{}",
            h.register,
            h.hub,
            h.attempt,
            u8::from(raised),
            record.promised.n,
            record.voted.n,
            record.voted.hub,
            record.voted.attempt,
            record.total
        ),
    }
}

fn main() -> io::Result<()> {
    let mut input = BufReader::with_capacity(65536, io::stdin().lock());
    let mut output = BufWriter::with_capacity(65536, io::stdout().lock());
    let mut records = [Record::default(); 4];
    let mut line = Vec::new();
    while input.read_until(b'\n', &mut line)? > 0 {
        answer(&mut records, &line, &mut output)?;
        line.clear();
    }
    output.flush()
}
