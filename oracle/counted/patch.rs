//! A strict applier of unified diffs of one file: context that does not match is refused.

/// What a patch says: the path of its file (behind `b/`) and its hunks.
pub struct Patch<'a> {
    pub path: &'a str,
    hunks: Vec<Hunk<'a>>,
}

struct Hunk<'a> {
    /// Lines of the original before this hunk.
    before: usize,
    old_count: usize,
    new_count: usize,
    body: Vec<&'a str>,
}

impl<'a> Patch<'a> {
    pub fn parse(text: &'a str) -> Result<Self, String> {
        let mut lines = text.lines();
        let old = lines.next().and_then(|line| line.strip_prefix("--- a/"));
        let new = lines.next().and_then(|line| line.strip_prefix("+++ b/"));
        let path = match (old, new) {
            (Some(old), Some(new)) if old == new => new,
            _ => return Err("the patch does not start with one file's two header lines".into()),
        };
        let mut hunks: Vec<Hunk> = Vec::new();
        for line in lines {
            if line.starts_with("@@ ") {
                hunks.push(parse_header(line)?);
            } else {
                let hunk = hunks.last_mut().ok_or("a line stands before any hunk")?;
                hunk.body.push(line);
            }
        }
        if hunks.is_empty() {
            return Err("the patch has no hunk".into());
        }
        Ok(Patch { path, hunks })
    }

    pub fn apply(&self, original: &str) -> Result<String, String> {
        let lines: Vec<&str> = original.split('\n').collect();
        let mut done = Vec::new();
        let mut next = 0;
        for hunk in &self.hunks {
            if hunk.before < next || hunk.before > lines.len() {
                return Err("a hunk is out of place".into());
            }
            done.extend_from_slice(&lines[next..hunk.before]);
            next = hunk.before + hunk.apply(&lines[hunk.before..], &mut done)?;
        }
        done.extend_from_slice(&lines[next..]);
        Ok(done.join("\n"))
    }
}

impl<'a> Hunk<'a> {
    /// Appends the hunk's new lines to `done`; returns how many of `lines` it replaces.
    fn apply(&self, lines: &[&'a str], done: &mut Vec<&'a str>) -> Result<usize, String> {
        let mut used = 0;
        let start = done.len();
        for line in &self.body {
            let (mark, text) = line.split_at_checked(1).ok_or("an empty hunk line")?;
            if mark != "+" {
                if lines.get(used) != Some(&text) {
                    return Err(format!("the file does not have the line {text:?} there"));
                }
                used += 1;
            }
            match mark {
                " " | "+" => done.push(text),
                "-" => {}
                _ => return Err(format!("a hunk line starts with {mark:?}")),
            }
        }
        if used != self.old_count || done.len() - start != self.new_count {
            return Err("a hunk's line counts are wrong".into());
        }
        Ok(used)
    }
}

/// `@@ -first,count +first,count @@`, counts always written.
fn parse_header<'a>(line: &str) -> Result<Hunk<'a>, String> {
    let numbers: Vec<usize> = line
        .split("@@")
        .nth(1)
        .unwrap_or("")
        .split([' ', ',', '-', '+'])
        .filter(|part| !part.is_empty())
        .map(|part| {
            part.parse()
                .map_err(|_| format!("bad hunk header {line:?}"))
        })
        .collect::<Result<_, _>>()?;
    match numbers[..] {
        [first, old_count, _, new_count] if first > 0 => Ok(Hunk {
            before: first - 1,
            old_count,
            new_count,
            body: Vec::new(),
        }),
        _ => Err(format!("bad hunk header {line:?}")),
    }
}
