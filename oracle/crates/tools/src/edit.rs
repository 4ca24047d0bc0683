//! One-line changes of a copy of the sources.

/// The file named, the line to find (blanks around it aside), what stands there instead, and which of several
/// such lines it is.
struct Edit {
    file: String,
    old: String,
    new: String,
    nth: usize,
}

fn read(path: &str) -> Result<Edit, String> {
    let text = std::fs::read_to_string(path).map_err(|e| format!("{path}: {e}"))?;
    let field = |name: &str| {
        let head = format!("{name} ");
        text.lines()
            .find_map(|line| line.strip_prefix(&head))
            .map(|v| v.trim().to_string())
    };
    let needed = |name: &str| field(name).ok_or(format!("{path}: no line {name}"));
    let nth = field("nth").map_or(Ok(0), |n| n.parse());
    Ok(Edit {
        file: needed("file")?,
        old: needed("old")?,
        new: needed("new")?,
        nth: nth.map_err(|_| format!("{path}: nth is no number"))?,
    })
}

/// Without `nth` the line must stand there once only.
pub fn apply(path: &str, dir: &str) -> Result<(), String> {
    let edit = read(path)?;
    let target = format!("{dir}/{}", edit.file);
    let text = std::fs::read_to_string(&target).map_err(|e| format!("{target}: {e}"))?;
    let mut lines: Vec<&str> = text.lines().collect();
    let places: Vec<usize> = (0..lines.len())
        .filter(|i| lines[*i].trim() == edit.old)
        .collect();
    let place = match (edit.nth, &places[..]) {
        (0, [one]) => *one,
        (nth, many) if nth > 0 && nth <= many.len() => many[nth - 1],
        _ => {
            return Err(format!(
                "{path}: the old line stands {} times",
                places.len()
            ));
        }
    };
    let old = lines[place];
    let indent = &old[..old.len() - old.trim_start().len()];
    let new = format!("{indent}{}", edit.new);
    lines[place] = &new;
    std::fs::write(&target, lines.join("\n") + "\n").map_err(|e| format!("{target}: {e}"))
}
