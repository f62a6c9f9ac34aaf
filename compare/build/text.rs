//! Cutting and changing source text, where every text looked for must stand there exactly as
//! often as expected: a source that moved on fails the build and can't be compared by mistake.

/// A stretch of a source file that becomes a file of the oracle.
pub struct Part {
    pub name: &'static str,
    pub file: &'static str,
    /// The stretch starts with the first mark and ends before the second; an empty second mark
    /// is the end of the file.
    pub marks: (&'static str, &'static str),
    /// Put before and after the stretch.
    pub frame: (&'static str, &'static str),
    pub changes: &'static [Change],
}

pub struct Change {
    pub old: &'static str,
    pub new: &'static str,
    pub count: usize,
    /// Not made in the program as published.
    pub oracle_only: bool,
}

/// The two programs that are made of the source.
#[derive(Clone, Copy, PartialEq)]
pub enum Made {
    /// With document 01's stand-ins, and handing out what is compared.
    Oracle,
    /// With its own library functions, for timing. Its modules stand under `published`.
    Published,
}

pub const fn part(
    name: &'static str,
    file: &'static str,
    marks: (&'static str, &'static str),
    changes: &'static [Change],
) -> Part {
    Part { name, file, marks, frame: ("", ""), changes }
}

pub const fn change(old: &'static str, new: &'static str, count: usize) -> Change {
    Change { old, new, count, oracle_only: false }
}

pub const fn oracle_only(old: &'static str, new: &'static str, count: usize) -> Change {
    Change { old, new, count, oracle_only: true }
}

pub fn make(part: &Part, whole: &str, made: Made) -> Result<String, String> {
    let mut text = cut(whole, part.marks)?.to_string();
    for c in part.changes.iter().filter(|c| made == Made::Oracle || !c.oracle_only) {
        text = changed(&text, c)?;
    }
    let text = format!("{}{text}{}", part.frame.0, part.frame.1);
    Ok(match made {
        Made::Oracle => text,
        Made::Published => text.replace("crate::oracle::", "crate::published::"),
    })
}

fn cut<'a>(whole: &'a str, (from, to): (&str, &str)) -> Result<&'a str, String> {
    let start = only(whole, from)?;
    let end = if to.is_empty() { whole.len() } else { only(whole, to)? };
    whole.get(start..end).ok_or(format!("{to:?} stands before {from:?}"))
}

fn only(whole: &str, mark: &str) -> Result<usize, String> {
    match whole.matches(mark).count() {
        1 => Ok(whole.find(mark).unwrap()),
        n => Err(format!("{mark:?} stands there {n} times, not once")),
    }
}

fn changed(text: &str, c: &Change) -> Result<String, String> {
    let n = text.matches(c.old).count();
    if n == c.count {
        return Ok(text.replace(c.old, c.new));
    }
    Err(format!("{:?} stands there {n} times, not {}", c.old, c.count))
}
