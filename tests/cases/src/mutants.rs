//! Planted mistakes: small changes of the peer's source, one at a time.
//!
//! The file of mutants has, for each, a line `mutant NAME: WHAT`, and for each change a line `in FILE`,
//! the lines to be replaced after `-` and the new ones after `+`. The old lines must stand in the file
//! exactly once.

pub struct Mutant<'a> {
    pub name: &'a str,
    pub what: &'a str,
    changes: Vec<Change<'a>>,
}

#[derive(Default)]
struct Change<'a> {
    file: &'a str,
    old: String,
    new: String,
}

pub fn read(text: &str) -> Result<Vec<Mutant<'_>>, String> {
    let mut mutants = Vec::new();
    for (number, line) in text.lines().enumerate() {
        read_line(&mut mutants, line)
            .ok_or_else(|| format!("line {}: not understood: {line}", number + 1))?;
    }
    Ok(mutants)
}

fn read_line<'a>(mutants: &mut Vec<Mutant<'a>>, line: &'a str) -> Option<()> {
    if line.is_empty() || line.starts_with('#') {
        return Some(());
    }
    if let Some(head) = line.strip_prefix("mutant ") {
        let (name, what) = head.split_once(": ")?;
        mutants.push(Mutant { name, what, changes: Vec::new() });
        return Some(());
    }
    let changes = &mut mutants.last_mut()?.changes;
    if let Some(file) = line.strip_prefix("in ") {
        changes.push(Change { file, ..Change::default() });
        return Some(());
    }
    let change = changes.last_mut()?;
    let side = match line.split_at_checked(1)? {
        ("-", old) => (&mut change.old, old),
        ("+", new) => (&mut change.new, new),
        _ => return None,
    };
    side.0.push_str(side.1);
    side.0.push('\n');
    Some(())
}

impl Mutant<'_> {
    /// Changes the sources that `read` gives and `write` takes, file by file.
    pub fn plant(
        &self,
        read: impl Fn(&str) -> Result<String, String>,
        write: impl Fn(&str, &str) -> Result<(), String>,
    ) -> Result<(), String> {
        for change in &self.changes {
            let source = read(change.file)?;
            let found = source.matches(&change.old).count();
            if found != 1 {
                return Err(format!(
                    "{}: old lines found {found} times in {}",
                    self.name, change.file
                ));
            }
            write(change.file, &source.replace(&change.old, &change.new))?;
        }
        Ok(())
    }
}
