// What `explore` and `stembase` do, in plain Rust by the textbook's NextClosure: a yardstick for their speed, and no part of them.
//
//     textbook explore < answers      holds a dialogue
//     textbook stembase < context     prints the base of a context
//     textbook foreman < context      writes the answers of a foreman who names the first object that breaks a question
use std::io::{self, BufWriter, Read, Write};

const MOST_ATTRIBUTES: u8 = 12;
const ROOM: usize = 4096;

#[derive(Clone, Copy)]
struct Implication {
    premise: u16,
    conclusion: u16,
}

fn is_subset(one: u16, other: u16) -> bool {
    one & other == one
}

impl Implication {
    fn is_respected_by(self, set: u16) -> bool {
        !is_subset(self.premise, set) || is_subset(self.conclusion, set)
    }
}

fn everything(n: u8) -> u16 {
    (1 << n) - 1
}

// What all objects that contain a set have in common.
fn common(n: u8, objects: &[u16], set: u16) -> u16 {
    objects
        .iter()
        .filter(|object| is_subset(set, **object))
        .fold(everything(n), |shared, object| shared & object)
}

// The least set that contains a set and respects the implications.
fn close(implications: &[Implication], set: u16) -> u16 {
    let mut closed = set;
    loop {
        let before = closed;
        for implication in implications {
            if is_subset(implication.premise, closed) {
                closed |= implication.conclusion;
            }
        }
        if closed == before {
            return closed;
        }
    }
}

// The closed set that follows a set in lectic order.
fn next_closure(n: u8, implications: &[Implication], set: u16) -> Option<u16> {
    let mut kept = set;
    for attribute in (0..n).rev() {
        let bit = 1 << attribute;
        if kept & bit != 0 {
            kept &= !bit;
        } else {
            let closed = close(implications, kept | bit);
            if (closed & !kept) & (bit - 1) == 0 {
                return Some(closed);
            }
        }
    }
    None
}

// The first set from a given one, in lectic order, that respects the implications and lacks an attribute that its examples have in common.
fn question(
    n: u8,
    implications: &[Implication],
    examples: &[u16],
    from: Option<u16>,
) -> Option<Implication> {
    let mut set = from;
    while let Some(premise) = set {
        let conclusion = common(n, examples, premise);
        if conclusion != premise {
            return Some(Implication {
                premise,
                conclusion,
            });
        }
        set = next_closure(n, implications, premise);
    }
    None
}

fn write_set(out: &mut impl Write, set: u16) -> io::Result<()> {
    if set == 0 {
        return write!(out, "-");
    }
    let mut space = "";
    for attribute in 0..16 {
        if set >> attribute & 1 == 1 {
            write!(out, "{space}{attribute}")?;
            space = " ";
        }
    }
    Ok(())
}

fn write_implication(out: &mut impl Write, implication: Implication) -> io::Result<()> {
    write_set(out, implication.premise)?;
    write!(out, ": ")?;
    write_set(out, implication.conclusion)?;
    writeln!(out)
}

struct Refusal {
    number: u8,
    place: usize,
}

enum Step {
    Confirm,
    Name(u16),
}

struct Exploration {
    n: u8,
    implications: Vec<Implication>,
    examples: Vec<u16>,
    asked: Option<Implication>,
}

impl Exploration {
    fn new(n: u8) -> Exploration {
        let asked = question(n, &[], &[], Some(0));
        Exploration {
            n,
            implications: Vec::new(),
            examples: Vec::new(),
            asked,
        }
    }

    fn judge(&self, answer: &[u8]) -> Result<Step, Refusal> {
        let refuse = |number, place| Err(Refusal { number, place });
        let [kind, low] = *answer else {
            return refuse(3, answer.len());
        };
        let number = u16::from(kind / 16) * 256 + u16::from(low);
        match kind % 16 {
            0 if number != 0 => return refuse(3, 1),
            0 => (),
            1 if number > everything(self.n) => return refuse(3, 1),
            1 => (),
            _ => return refuse(3, 0),
        }
        let Some(asked) = self.asked else {
            return refuse(4, 0);
        };
        if kind % 16 == 0 {
            if self.implications.len() >= ROOM {
                return refuse(7, 1);
            }
            return Ok(Step::Confirm);
        }
        if asked.is_respected_by(number) {
            return refuse(5, usize::from(number));
        }
        if let Some(place) = self
            .implications
            .iter()
            .position(|implication| !implication.is_respected_by(number))
        {
            return refuse(6, place);
        }
        if self.examples.len() >= ROOM {
            return refuse(7, 2);
        }
        Ok(Step::Name(number))
    }

    // Takes or refuses an answer, and finds what is asked next: after a confirmation behind the premise, after an example from the premise on.
    fn take(&mut self, answer: &[u8]) -> Result<Step, Refusal> {
        let step = self.judge(answer)?;
        if let Some(asked) = self.asked {
            let from = match step {
                Step::Confirm => {
                    self.implications.push(asked);
                    next_closure(self.n, &self.implications, asked.premise)
                }
                Step::Name(object) => {
                    self.examples.push(object);
                    Some(asked.premise)
                }
            };
            self.asked = question(self.n, &self.implications, &self.examples, from);
        }
        Ok(step)
    }

    // Prints what is asked; when nothing is asked any more, once, what was confirmed. Says whether the dialogue is finished.
    fn print_asked(&self, out: &mut impl Write, finished: bool) -> io::Result<bool> {
        let Some(asked) = self.asked else {
            if !finished {
                writeln!(out, "finished")?;
                for implication in &self.implications {
                    write_implication(out, *implication)?;
                }
            }
            return Ok(true);
        };
        write!(out, "all with ")?;
        write_set(out, asked.premise)?;
        write!(out, " have ")?;
        write_set(out, asked.conclusion)?;
        writeln!(out, "?")?;
        Ok(false)
    }
}

fn explore(out: &mut impl Write, n: u8, answers: &[u8]) -> io::Result<()> {
    if n > MOST_ATTRIBUTES {
        return writeln!(out, "refused 2 at 0");
    }
    let mut exploration = Exploration::new(n);
    let mut finished = false;
    for answer in answers.chunks(2) {
        finished = exploration.print_asked(out, finished)?;
        match exploration.take(answer) {
            Ok(Step::Confirm) => writeln!(out, "always")?,
            Ok(Step::Name(object)) => {
                write!(out, "not ")?;
                write_set(out, object)?;
                writeln!(out)?;
            }
            Err(refusal) => writeln!(out, "refused {} at {}", refusal.number, refusal.place)?,
        }
    }
    exploration.print_asked(out, finished)?;
    Ok(())
}

// The objects of a context, two bytes each: 1 plus 16 times the higher attributes, and the low eight; or the first that is at fault.
fn read_objects(n: u8, bytes: &[u8]) -> Result<Vec<u16>, usize> {
    let mut objects = Vec::new();
    for (place, pair) in bytes.chunks(2).enumerate() {
        let [high, low] = *pair else {
            return Err(place);
        };
        let object = u16::from(high / 16) * 256 + u16::from(low);
        if high % 16 != 1 || object > everything(n) || place >= ROOM {
            return Err(place);
        }
        objects.push(object);
    }
    Ok(objects)
}

fn base(n: u8, objects: &[u16]) -> Vec<Implication> {
    let mut implications = Vec::new();
    let mut from = Some(0);
    while let Some(asked) = question(n, &implications, objects, from) {
        implications.push(asked);
        from = next_closure(n, &implications, asked.premise);
    }
    implications
}

fn stembase(out: &mut impl Write, n: u8, bytes: &[u8]) -> io::Result<()> {
    if n > MOST_ATTRIBUTES {
        return writeln!(out, "refused 2 at 0");
    }
    match read_objects(n, bytes) {
        Err(place) => writeln!(out, "refused 8 at {place}"),
        Ok(objects) => {
            for implication in base(n, &objects) {
                write_implication(out, implication)?;
            }
            Ok(())
        }
    }
}

fn foreman(out: &mut impl Write, n: u8, bytes: &[u8]) -> io::Result<()> {
    let Ok(objects) = read_objects(n, bytes) else {
        return Err(io::Error::other("the context is at fault"));
    };
    out.write_all(&[n])?;
    let mut exploration = Exploration::new(n);
    while let Some(asked) = exploration.asked {
        let named = objects
            .iter()
            .find(|object| !asked.is_respected_by(**object));
        let answer = match named {
            None => [0, 0],
            Some(object) => [1 + 16 * (object >> 8) as u8, *object as u8],
        };
        out.write_all(&answer)?;
        if exploration.take(&answer).is_err() {
            return Err(io::Error::other("a true answer was refused"));
        }
    }
    Ok(())
}

fn main() -> io::Result<()> {
    let job = std::env::args().nth(1);
    let mut input = Vec::new();
    io::stdin().read_to_end(&mut input)?;
    let Some((n, bytes)) = input.split_first() else {
        return Err(io::Error::other("the input is empty"));
    };
    let mut out = BufWriter::new(io::stdout().lock());
    match job.as_deref() {
        Some("explore") => explore(&mut out, *n, bytes)?,
        Some("stembase") => stembase(&mut out, *n, bytes)?,
        Some("foreman") => foreman(&mut out, *n, bytes)?,
        _ => return Err(io::Error::other("the job is explore, stembase or foreman")),
    }
    out.flush()
}
