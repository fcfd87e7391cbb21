//! Questions in the head of a scene in text form, with their answers: of an edge
//! or of a list. oracle/README.md describes the form.

use crate::print::MOVEMENTS;
use crate::reasons::{Walked, words};
use crate::text::float;
use crate::{NO_DOOR, WAYPOINT, Waypoint};

/// What is asked of a scene.
#[derive(Debug, Clone, PartialEq)]
pub enum Question {
    /// The edge from one point to another.
    Edge([f64; 3], [f64; 3]),
    /// The walk-back of a list.
    Walk(Vec<u8>),
}

/// A question and the answer that it must have; an edge's has no place.
#[derive(Debug, Clone, PartialEq)]
pub struct Asked {
    /// The line, as it stands in the scene.
    pub line: String,
    pub question: Question,
    pub answer: Walked,
}

/// The questions of a scene: the lines behind `# Asked:`, each begun by `#   `.
pub fn asked(text: &str) -> Result<Vec<Asked>, String> {
    let mut lines = text.lines();
    lines.find(|line| *line == "# Asked:");
    lines
        .map_while(|line| line.strip_prefix("#   "))
        .map(|line| one(line).map_err(|error| format!("{line}: {error}")))
        .collect()
}

fn one(line: &str) -> Result<Asked, String> {
    let (question, answer) = line.split_once(": ").ok_or("it has no answer")?;
    let (kind, rest) = question.split_once(' ').ok_or("nothing is asked")?;
    Ok(Asked {
        line: line.to_string(),
        question: match kind {
            "edge" => edge(rest)?,
            "walk" => Question::Walk(list(rest)?),
            _ => return Err(format!("{kind} is no question")),
        },
        answer: told(answer)?,
    })
}

/// A number, its words, and perhaps a place.
fn told(answer: &str) -> Result<Walked, String> {
    let (said, place) = match answer.split_once(", place ") {
        Some((said, place)) => (said, Some(whole(place)?)),
        None => (answer, None),
    };
    let (number, meaning) = said.split_once(' ').ok_or("an answer has words")?;
    let number = whole(number)?;
    if meaning != words(number) {
        return Err(format!("{number} is {}", words(number)));
    }
    Ok(Walked { number, place })
}

fn edge(rest: &str) -> Result<Question, String> {
    let (from, to) = rest.split_once(" to ").ok_or("an edge leads to a point")?;
    let point = |text: &str| {
        let words: Vec<&str> = text.split_whitespace().collect();
        floats(&words)
    };
    Ok(Question::Edge(point(from)?, point(to)?))
}

/// `nothing`, or waypoints with commas between them.
fn list(rest: &str) -> Result<Vec<u8>, String> {
    let mut out = Vec::new();
    if rest == "nothing" {
        return Ok(out);
    }
    for item in rest.split(", ") {
        let words: Vec<&str> = item.split_whitespace().collect();
        match words[..] {
            ["cut", kept] => {
                // As in a scene: so many bytes are kept of the record before.
                let before = out.len() - out.len().min(WAYPOINT);
                out.truncate(before + whole(kept)? as usize);
            }
            _ => out.extend(waypoint(&words)?.bytes()),
        }
    }
    Ok(out)
}

/// Feet; then the movement, by name or number, and the lift, where they are not
/// `walk 0`; then `door` and its number, where there is one.
fn waypoint(words: &[&str]) -> Result<Waypoint, String> {
    let (words, door) = match words {
        [front @ .., "door", number] => (front, whole(number)?),
        _ => (words, NO_DOOR),
    };
    if words.len() > 5 {
        return Err("more than feet, movement and lift".to_string());
    }
    let named = |word: &str| MOVEMENTS.iter().position(|name| *name == word);
    let movement = match words.get(3) {
        Some(word) => match named(word) {
            Some(number) => number as u64,
            None => whole(word)?,
        },
        None => 0,
    };
    Ok(Waypoint {
        feet: floats(words.get(..3).ok_or("a point has three numbers")?)?,
        lift: words.get(4).map_or(Ok(0.0), |word| float(word))?,
        movement,
        door,
    })
}

fn floats(words: &[&str]) -> Result<[f64; 3], String> {
    match words {
        [x, y, z] => Ok([float(x)?, float(y)?, float(z)?]),
        _ => Err("a point has three numbers".to_string()),
    }
}

fn whole(word: &str) -> Result<u64, String> {
    let parsed = match word.strip_prefix("0x") {
        Some(digits) => u64::from_str_radix(digits, 16),
        None => word.parse(),
    };
    parsed.map_err(|_| format!("{word} is no whole number"))
}
