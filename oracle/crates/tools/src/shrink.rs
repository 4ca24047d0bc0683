//! Makes a failing input smaller: first by leaving out items, then by making each item simpler.

/// Runs allowed for one input, so that a slow command cannot hold the comparer for ever.
pub const MOST_RUNS: usize = 2000;

pub struct Shrinker<'a, T> {
    /// Whether an input still shows what is looked for.
    pub shows: &'a mut dyn FnMut(&[T]) -> bool,
    /// Simpler forms of one item, the simplest first.
    pub simpler: &'a dyn Fn(&T) -> Vec<T>,
    pub most_runs: usize,
}

impl<T: Clone + PartialEq> Shrinker<'_, T> {
    pub fn shrink(&mut self, items: Vec<T>) -> Vec<T> {
        let mut items = items;
        let mut runs = 0;
        loop {
            let before = items.clone();
            items = self.leave_out(items, &mut runs);
            items = self.simplify(items, &mut runs);
            if items == before || runs >= self.most_runs {
                return items;
            }
        }
    }

    fn try_it(&mut self, items: &[T], runs: &mut usize) -> bool {
        *runs += 1;
        *runs <= self.most_runs && (self.shows)(items)
    }

    /// Leaves out runs of items, from halves down to single ones.
    fn leave_out(&mut self, items: Vec<T>, runs: &mut usize) -> Vec<T> {
        let mut items = items;
        let mut size = items.len().div_ceil(2);
        while size > 0 {
            let mut at = items.len();
            while at > 0 {
                let from = at.saturating_sub(size);
                let less = [&items[..from], &items[at.min(items.len())..]].concat();
                if self.try_it(&less, runs) {
                    items = less;
                }
                at = from;
            }
            size /= 2;
        }
        items
    }

    fn simplify(&mut self, items: Vec<T>, runs: &mut usize) -> Vec<T> {
        let mut items = items;
        for at in 0..items.len() {
            while let Some(simpler) = self.simpler_at(&items, at, runs) {
                items[at] = simpler;
            }
        }
        items
    }

    fn simpler_at(&mut self, items: &[T], at: usize, runs: &mut usize) -> Option<T> {
        for candidate in (self.simpler)(&items[at]) {
            let mut changed = items.to_vec();
            changed[at] = candidate.clone();
            if candidate != items[at] && self.try_it(&changed, runs) {
                return Some(candidate);
            }
        }
        None
    }
}

/// Simpler forms of a script line: each number smaller, each row of bytes shorter or with a byte at 0.
pub fn simpler_line(line: &str) -> Vec<String> {
    let words: Vec<&str> = line.split(' ').collect();
    let mut all = Vec::new();
    for (at, word) in words.iter().enumerate().skip(1) {
        for candidate in simpler_word(word) {
            let mut changed = words.clone();
            changed[at] = &candidate;
            all.push(changed.join(" "));
        }
    }
    all
}

fn simpler_word(word: &str) -> Vec<String> {
    let mut all = Vec::new();
    if let Ok(n) = word.parse::<u64>() {
        // 0, 1, then ever smaller steps down, so that a limit is met in few runs.
        let steps = (1..64).map(|k| n >> k).take_while(|step| *step > 0);
        let smaller = [0, 1].into_iter().chain(steps.map(|step| n - step));
        all.extend(smaller.filter(|m| *m < n).map(|m| m.to_string()));
    }
    if let Some(bytes) = form::parse::unhex(word) {
        all.extend(simpler_bytes(&bytes).iter().map(|b| form::print::hex(b)));
    }
    all
}

/// Halves, one byte less, and single bytes at 0; none is longer, and equal length means a smaller byte.
fn simpler_bytes(bytes: &[u8]) -> Vec<Vec<u8>> {
    let n = bytes.len();
    if n == 0 {
        return Vec::new();
    }
    let mut all = vec![vec![], bytes[..n / 2].to_vec(), bytes[n / 2..].to_vec()];
    all.extend(
        (2..12)
            .map(|k| n >> k)
            .take_while(|cut| *cut > 1)
            .map(|cut| bytes[..n - cut].to_vec()),
    );
    all.extend((0..n.min(48)).map(|i| [&bytes[..i], &bytes[i + 1..]].concat()));
    if n > 48 {
        all.push(bytes[..n - 1].to_vec());
        all.push(vec![0; n]);
    }
    for i in (0..n.min(48)).filter(|i| bytes[*i] != 0) {
        let mut zeroed = bytes.to_vec();
        zeroed[i] = 0;
        all.push(zeroed);
    }
    all.retain(|b| b != bytes);
    all
}

/// Simpler forms of a trace record: its body shortened or with a byte at 0, its length mended.
pub fn simpler_record(record: &[u8]) -> Vec<Vec<u8>> {
    if record.len() < 4 {
        return Vec::new();
    }
    let mended =
        |body: Vec<u8>| [&(body.len() as u16).to_le_bytes()[..], &record[2..4], &body].concat();
    simpler_bytes(&record[4..])
        .into_iter()
        .map(mended)
        .collect()
}

#[cfg(test)]
mod tests {
    use super::*;

    #[test]
    fn leaves_only_what_shows_it() {
        let lines: Vec<String> = (0..40).map(|n| format!("tick {}", n * 100)).collect();
        let mut shows = |lines: &[String]| {
            let numbers: Vec<u64> = lines.iter().filter_map(|l| l[5..].parse().ok()).collect();
            numbers.iter().any(|n| *n >= 1234) && numbers.iter().any(|n| *n < 1000)
        };
        let simpler = |line: &String| simpler_line(line);
        let small = Shrinker {
            shows: &mut shows,
            simpler: &simpler,
            most_runs: MOST_RUNS,
        }
        .shrink(lines);
        assert_eq!(small, ["tick 0", "tick 1234"]);
    }

    #[test]
    fn shortens_bytes_in_place() {
        let mut shows = |lines: &[String]| lines.iter().any(|l| l.contains("7F"));
        let simpler = |line: &String| simpler_line(line);
        let line = vec!["pool 0102037F05060708".to_string()];
        let small = Shrinker {
            shows: &mut shows,
            simpler: &simpler,
            most_runs: MOST_RUNS,
        }
        .shrink(line);
        assert_eq!(small, ["pool 7F"]);
    }
}
