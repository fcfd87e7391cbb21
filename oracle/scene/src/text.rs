//! Scenes as text that a person writes, and back. oracle/README.md describes
//! the form.

use std::collections::HashMap;

use crate::read::RECORD;
use crate::record::Record;

/// The words before the numbers of a body.
const BODY: [&str; 6] = ["step", "jump", "drop", "width", "height", "bodystep"];

/// A record's line in the text form.
fn line(record: &Record) -> String {
    match record {
        Record::Request {
            start,
            goal,
            max_range,
            budget,
        } => format!(
            "request start {} goal {} range {} budget {budget}",
            floats_text(start),
            floats_text(goal),
            float_text(*max_range)
        ),
        Record::Body { numbers } => {
            let named = BODY.iter().zip(numbers);
            let word = |(name, number): (&&str, &f64)| format!(" {name} {}", float_text(*number));
            format!("body{}", named.map(word).collect::<String>())
        }
        other => line_of_world(other),
    }
}

/// The line of a record of kind 3 to 6, or of a raw one.
fn line_of_world(record: &Record) -> String {
    match record {
        Record::Window { origin, sizes } => {
            format!("window origin {} sizes {}", spaced(origin), spaced(sizes))
        }
        Record::Shape { shape, numbers } => format!(
            "shape {shape} box {} to {}",
            floats_text(&numbers[..3]),
            floats_text(&numbers[3..])
        ),
        Record::State { state, permission } => format!("state {state} permission {permission}"),
        Record::Fill {
            min,
            max,
            state,
            shape,
        } => format!(
            "fill {} to {} state {state} shape {shape}",
            spaced(min),
            spaced(max)
        ),
        other => {
            let hex: Vec<String> = other.bytes().iter().map(|b| format!("{b:02x}")).collect();
            format!("raw {}", hex.concat())
        }
    }
}

fn spaced<T: ToString>(numbers: &[T]) -> String {
    let words: Vec<String> = numbers.iter().map(T::to_string).collect();
    words.join(" ")
}

fn floats_text(numbers: &[f64]) -> String {
    let words: Vec<String> = numbers.iter().map(|&number| float_text(number)).collect();
    words.join(" ")
}

/// The text of a scene's bytes, a line a record.
pub fn to_text(bytes: &[u8]) -> String {
    let mut out = String::new();
    for record in bytes.chunks(RECORD) {
        out.push_str(&line(&Record::from_bytes(record)));
        out.push('\n');
    }
    out
}

/// The bytes of a scene's text; an error says its line.
pub fn from_text(text: &str) -> Result<Vec<u8>, String> {
    let mut writer = Writer::default();
    for (number, line) in text.lines().enumerate() {
        let line = line.split('#').next().unwrap_or("");
        let words: Vec<&str> = line.split_whitespace().collect();
        if words.is_empty() {
            continue;
        }
        writer
            .line(&mut Words {
                words,
                next: 0,
                names: HashMap::new(),
            })
            .map_err(|error| format!("line {}: {error}", number + 1))?;
    }
    Ok(writer.records.concat())
}

/// The words of a line, with the names that stand for whole numbers.
struct Words<'a> {
    words: Vec<&'a str>,
    next: usize,
    names: HashMap<String, i64>,
}

#[derive(Default)]
struct Writer {
    records: Vec<Vec<u8>>,
    names: HashMap<String, i64>,
    window: Option<([i32; 3], [u32; 3])>,
}

impl Writer {
    fn line(&mut self, words: &mut Words) -> Result<(), String> {
        words.names = std::mem::take(&mut self.names);
        let done = self.statement(words).and_then(|()| words.end());
        self.names = std::mem::take(&mut words.names);
        done
    }

    /// A record, or a change of the record above, or a name.
    fn statement(&mut self, words: &mut Words) -> Result<(), String> {
        let record = match words.word()? {
            "request" => words.request()?,
            "body" => words.body()?,
            "window" => self.window(words)?,
            "shape" => words.shape()?,
            "state" => Record::State {
                state: words.whole()?,
                permission: words.after("permission")?.whole()?,
            },
            "fill" => self.fill(words)?,
            "raw" => Record::Raw(hex(words.word()?)?),
            "let" => return words.name(),
            "patch" => return self.patch(words),
            "cut" => {
                let length: usize = words.whole()?;
                self.last()?.truncate(length);
                return Ok(());
            }
            other => return Err(format!("unknown word {other}")),
        };
        self.records.push(record.bytes());
        Ok(())
    }

    fn window(&mut self, words: &mut Words) -> Result<Record, String> {
        let origin = words.after("origin")?.corner()?;
        words.after("sizes")?;
        let sizes = [words.whole()?, words.whole()?, words.whole()?];
        self.window = Some((origin, sizes));
        Ok(Record::Window { origin, sizes })
    }

    fn fill(&mut self, words: &mut Words) -> Result<Record, String> {
        let (min, max) = if words.took("all") {
            self.whole_window()?
        } else {
            let min = words.corner()?;
            let max = if words.took("to") {
                words.corner()?
            } else {
                min
            };
            (min, max)
        };
        Ok(Record::Fill {
            min,
            max,
            state: words.after("state")?.whole()?,
            shape: words.after("shape")?.whole()?,
        })
    }

    fn patch(&mut self, words: &mut Words) -> Result<(), String> {
        let at: usize = words.whole()?;
        let bytes = hex(words.word()?)?;
        self.last()?
            .get_mut(at..at + bytes.len())
            .ok_or("the patch passes the record's end")?
            .copy_from_slice(&bytes);
        Ok(())
    }

    fn last(&mut self) -> Result<&mut Vec<u8>, String> {
        self.records.last_mut().ok_or("no record above".to_string())
    }

    /// The corners of the whole window.
    fn whole_window(&self) -> Result<([i32; 3], [i32; 3]), String> {
        let (origin, sizes) = self.window.ok_or("no window before `fill all`")?;
        let max = std::array::from_fn(|axis| {
            let last = i64::from(origin[axis]) + i64::from(sizes[axis]) - 1;
            last.clamp(i64::from(i32::MIN), i64::from(i32::MAX)) as i32
        });
        Ok((origin, max))
    }
}

impl<'a> Words<'a> {
    fn peek(&self) -> Option<&'a str> {
        self.words.get(self.next).copied()
    }

    fn word(&mut self) -> Result<&'a str, String> {
        let word = self.peek().ok_or("the line ends too early")?;
        self.next += 1;
        Ok(word)
    }

    fn after(&mut self, name: &str) -> Result<&mut Self, String> {
        match self.word()? {
            word if word == name => Ok(self),
            word => Err(format!("{word} where {name} was awaited")),
        }
    }

    /// Passes the word if it comes next.
    fn took(&mut self, name: &str) -> bool {
        let comes = self.peek() == Some(name);
        self.next += usize::from(comes);
        comes
    }

    fn request(&mut self) -> Result<Record, String> {
        Ok(Record::Request {
            start: self.after("start")?.floats()?,
            goal: self.after("goal")?.floats()?,
            max_range: self.after("range")?.float()?,
            budget: self.after("budget")?.whole()?,
        })
    }

    fn body(&mut self) -> Result<Record, String> {
        let mut numbers = [0.0; 6];
        for (name, number) in BODY.iter().zip(&mut numbers) {
            *number = self.after(name)?.float()?;
        }
        Ok(Record::Body { numbers })
    }

    fn shape(&mut self) -> Result<Record, String> {
        let shape = self.whole()?;
        let [a, b, c] = self.after("box")?.floats()?;
        let [d, e, f] = self.after("to")?.floats()?;
        Ok(Record::Shape {
            shape,
            numbers: [a, b, c, d, e, f],
        })
    }

    /// A name for a whole number.
    fn name(&mut self) -> Result<(), String> {
        let name = self.word()?.to_string();
        let value = self.after("=")?.number()?;
        self.names.insert(name, value);
        Ok(())
    }

    fn end(&mut self) -> Result<(), String> {
        match self.peek() {
            None => Ok(()),
            Some(word) => Err(format!("{word} after the end of the record")),
        }
    }

    /// A whole number, decimal or 0x, or a name.
    fn number(&mut self) -> Result<i64, String> {
        let word = self.word()?;
        if let Some(&value) = self.names.get(word) {
            return Ok(value);
        }
        let parsed = match word.strip_prefix("0x") {
            Some(digits) => i64::from_str_radix(digits, 16),
            None => word.parse(),
        };
        parsed.map_err(|_| format!("{word} is no whole number and no name"))
    }

    fn whole<T: TryFrom<i64>>(&mut self) -> Result<T, String> {
        let number = self.number()?;
        T::try_from(number).map_err(|_| format!("{number} does not fit"))
    }

    fn corner(&mut self) -> Result<[i32; 3], String> {
        Ok([self.whole()?, self.whole()?, self.whole()?])
    }

    fn float(&mut self) -> Result<f64, String> {
        float(self.word()?)
    }

    fn floats(&mut self) -> Result<[f64; 3], String> {
        Ok([self.float()?, self.float()?, self.float()?])
    }
}

/// A float: decimal, or 0x and the bits; then perhaps ^+K or ^-K, the number
/// K places further or nearer on the line of all floats.
pub(crate) fn float(word: &str) -> Result<f64, String> {
    let (base, shift) = match word.split_once('^') {
        Some((base, shift)) => (
            base,
            shift
                .parse::<i64>()
                .map_err(|_| format!("{shift} is no count of places"))?,
        ),
        None => (word, 0),
    };
    let number: f64 = match base.strip_prefix("0x") {
        Some(digits) => f64::from_bits(
            u64::from_str_radix(digits, 16).map_err(|_| format!("{base} are no bits"))?,
        ),
        None => base.parse().map_err(|_| format!("{base} is no number"))?,
    };
    if shift == 0 {
        return Ok(number);
    }
    // The line of floats in order: negative ones mirrored.
    let bits = number.to_bits() as i64;
    let place = if bits < 0 { i64::MIN - bits } else { bits };
    let moved = place + shift;
    let bits = if moved < 0 { i64::MIN - moved } else { moved };
    Ok(f64::from_bits(bits as u64))
}

/// The shortest decimal that reads back to the same bits, else the bits.
fn float_text(number: f64) -> String {
    let decimal = format!("{number}");
    let short = if decimal.len() <= 17 {
        decimal
    } else {
        format!("{number:e}")
    };
    match short.parse::<f64>() {
        Ok(back) if back.to_bits() == number.to_bits() => short,
        _ => format!("0x{:016x}", number.to_bits()),
    }
}

fn hex(word: &str) -> Result<Vec<u8>, String> {
    if !word.is_ascii() || !word.len().is_multiple_of(2) {
        return Err(format!("{word} is no row of hex bytes"));
    }
    (0..word.len() / 2)
        .map(|i| {
            u8::from_str_radix(&word[2 * i..2 * i + 2], 16)
                .map_err(|_| format!("{word} is no row of hex bytes"))
        })
        .collect()
}
