//! The branches of the rules by name, and how often each was reached.

use std::collections::BTreeMap;

/// Reached counts; every name is there from the start, so that one never reached shows as 0.
pub struct Hits(BTreeMap<String, u64>);

impl Default for Hits {
    fn default() -> Self {
        Self(all().into_iter().map(|name| (name, 0)).collect())
    }
}

impl Hits {
    pub fn hit(&mut self, name: &str) {
        match self.0.get_mut(name) {
            Some(count) => *count += 1,
            None => panic!("the branch {name} is not listed"),
        }
    }

    pub fn either(&mut self, first: bool, one: &str, other: &str) {
        self.hit(if first { one } else { other });
    }

    pub fn counts(&self) -> &BTreeMap<String, u64> {
        &self.0
    }

    pub fn unreached(&self) -> Vec<&str> {
        self.0
            .iter()
            .filter(|(_, n)| **n == 0)
            .map(|(name, _)| name.as_str())
            .collect()
    }

    pub fn reached(&self) -> Vec<&str> {
        self.0
            .iter()
            .filter(|(_, n)| **n > 0)
            .map(|(name, _)| name.as_str())
            .collect()
    }

    pub fn add(&mut self, other: &Hits) {
        for (name, n) in &other.0 {
            *self.0.get_mut(name).expect("one list of names") += n;
        }
    }
}

/// One line: a head, a colon or a blank, and the names that follow it, parted by `|`.
const NAMES: &[(&str, &str)] = &[
    ("result 10: ", "request|question|tick|complete|fail|drain"),
    (
        "result 10: ",
        "configuration|empty frame|last_rx|deadline|lock|subscription",
    ),
    ("result 6: ", "request|question|tick|complete|fail"),
    ("time 2^48: ", "request|question|tick|complete|fail"),
    (
        "result 7: ",
        "sessions|services|identifiers|levels|span|list|seed or key",
    ),
    (
        "fresh: ",
        "8 sessions|24 services|128 identifiers|8 levels|list of 8|span 2^32 - 1",
    ),
    ("fresh: ", "seed of 32|key of 32|no row at all"),
    ("result 2: ", "empty|above 4095"),
    ("result 1: ", "complete|fail"),
    (
        "result 3: ",
        "positive|negative|first 78|refreshed 78|periodic|complete|fail|earlier ones stay",
    ),
    ("result 3: ", "the refresh before what is due"),
    (
        "order: ",
        "10 before 6|10 before 1|10 before 5|10 before the address|10 before busy",
    ),
    (
        "order: ",
        "6 before 1|6 before the address|6 before busy|address before 2",
    ),
    ("functional: ", "dropped with a full queue"),
    ("deadline: ", "P2* of session 1 after S3"),
    (
        "27 ",
        "lock before unknown level|lock before sequence|lock before the key",
    ),
    ("27 ", "sequence before key length"),
    (
        "22 ",
        "31 before 33|14 before the value's error|14 before the next identifier",
    ),
    ("2E ", "31 before 33"),
    ("2A ", "unreadable before a full table"),
    (
        "3E ",
        "suppressed with a full queue|reply meets a full queue",
    ),
    (
        "10 ",
        "suppressed with a full queue|reply meets a full queue",
    ),
    (
        "11 ",
        "suppressed with a full queue|reply meets a full queue",
    ),
    (
        "28 ",
        "suppressed with a full queue|reply meets a full queue",
    ),
    (
        "31 ",
        "suppressed with a full queue|reply meets a full queue",
    ),
    ("27 ", "reply meets a full queue"),
    ("22 ", "reply meets a full queue"),
    ("2E ", "reply meets a full queue"),
    ("2A ", "reply meets a full queue"),
    ("2F ", "reply meets a full queue"),
    ("34 ", "reply meets a full queue"),
    ("36 ", "reply meets a full queue"),
    ("37 ", "reply meets a full queue"),
    ("38 ", "reply meets a full queue"),
    ("result 4: ", "periodic|before 3|earlier ones stay"),
    ("result 5: ", "drain|by one"),
    ("result 8: ", "periodic|before 3|earlier ones stay"),
    (
        "address: ",
        "physical|functional|foreign|both are one, so physical",
    ),
    ("last_rx: ", "the clock went back"),
    (
        "busy",
        "|: functional|: empty frame|: above 4095|: queue full",
    ),
    ("frame of ", "4095"),
    (
        "service: ",
        "no row|unknown byte|not in this session|configured outside the fourteen",
    ),
    ("service: ", "first of two rows"),
    (
        "functional: ",
        "11 dropped|12 dropped|31 dropped|7E dropped|7F dropped|another code sent",
    ),
    ("pending: ", "default P2*"),
    ("outcome: ", "error|error and too many bytes"),
    (
        "value: ",
        "no row|first of two rows|above 256|above 256 with an error|outside the pool",
    ),
    (
        "value: ",
        "outside with an error|empty past the pool's end|error byte|empty|of 256",
    ),
    ("value: ", "up to the pool's end|within the pool"),
    ("question: act ", "00|11|27|28|2E|2F|31|34|36|37|38"),
    ("question: result ", "0|2"),
    (
        "3E ",
        "physical|functional|positive|absent|sub-function|suppress bit set|suppress bit clear",
    ),
    (
        "10 ",
        "physical|functional|positive|short|unknown session|first of two rows|level dropped",
    ),
    (
        "10 ",
        "seed cleared|suppress bit set|suppress bit clear|P2 above 16 bits|P2* above 16 bits",
    ),
    (
        "11 ",
        "physical|functional|positive|short|act|error byte|error 78|too many bytes",
    ),
    (
        "11 ",
        "suppress bit set|suppress bit clear|queue full keeps the session|level dropped",
    ),
    ("11 ", "seed cleared"),
    (
        "27 ",
        "physical|functional|positive|short|act|too many bytes|suppress bit set",
    ),
    (
        "27 ",
        "suppress bit clear|access type 0|locked|locked, a moment before the end",
    ),
    (
        "27 ",
        "lock ends at this moment|lock ended before|unknown level|provider error",
    ),
    (
        "27 ",
        "provider error keeps the seed|wrong seed length|wrong seed length clears the seed",
    ),
    (
        "27 ",
        "seed of 32|seed of 31|seed of no bytes|seed|level not pending|seed empty",
    ),
    (
        "27 ",
        "key too short|key too long|key of the right length|key for a level with no row",
    ),
    (
        "27 ",
        "accepted, count to 0|accepted, no count|no room for a count|refused|locked first",
    ),
    (
        "27 ",
        "locked again|no room for a lock|count made|count up|count stays at 255",
    ),
    (
        "22 ",
        "physical|functional|positive|short|less than two|odd|no row|not in this session",
    ),
    (
        "22 ",
        "first of two rows|level not held|level held|higher level held|identifier past 256",
    ),
    (
        "22 ",
        "value past 256|reply of 256|reply above 256|several identifiers|error byte",
    ),
    ("22 ", "error 78|refused after a good one"),
    (
        "2E ",
        "physical|functional|positive|short|no row|not in this session|first of two rows",
    ),
    (
        "2E ",
        "level not held|level held|higher level held|act|error byte|error 78|too many bytes",
    ),
    (
        "2A ",
        "physical|functional|positive|short|mode 1|mode 2|mode 3|mode 4|other mode",
    ),
    (
        "2A ",
        "mode with bit 7|no identifier|unreadable|unreadable after a good one|renewed",
    ),
    (
        "2A ",
        "level is not tested|minimum above the rate|registered|table full, physical",
    ),
    (
        "2A ",
        "table full, functional|cancelled|nothing to cancel|another client's stays",
    ),
    (
        "31 ",
        "physical|functional|positive|short|act|error byte|error 78|too many bytes",
    ),
    (
        "31 ",
        "suppress bit set|suppress bit clear|reply of 256|reply above 256",
    ),
    (
        "28 ",
        "physical|functional|positive|short|act|error byte|error 78|too many bytes",
    ),
    ("28 ", "suppress bit set|suppress bit clear"),
    (
        "2F ",
        "physical|functional|positive|short|act|error byte|error 78|too many bytes",
    ),
    ("2F ", "reply of 256|reply above 256"),
    (
        "34 ",
        "physical|functional|positive|short|act|error byte|error 78|too many bytes",
    ),
    (
        "34 ",
        "lengths do not fit|lengths fit to the byte|bytes after the size|no address|no size",
    ),
    ("34 ", "64 bytes"),
    (
        "36 ",
        "physical|functional|positive|short|act|error byte|error 78|too many bytes",
    ),
    ("36 ", "reply of 256|reply above 256"),
    (
        "37 ",
        "physical|functional|positive|no payload|act|error byte|error 78|too many bytes",
    ),
    ("37 ", "reply of 256|reply above 256"),
    (
        "38 ",
        "physical|functional|positive|short|act|error byte|error 78|too many bytes",
    ),
    (
        "38 ",
        "path of no bytes|path does not fit|path fits to the byte|bytes after the path",
    ),
    ("38 ", "reply of 256|reply above 256"),
    (
        "S3: ",
        "session 1|default|the clock went back|at equality|not yet|expired by one|expired",
    ),
    ("S3: ", "seed cleared|level dropped"),
    (
        "deadline: ",
        "nothing pending|a moment before|before|at the moment|after|default P2*",
    ),
    ("next: ", "a moment before|before|at the moment|after"),
    (
        "periodic: ",
        "nothing due|one sent|several sent|frame of 256",
    ),
    ("complete: ", "frame of 256|14|sent|functional"),
    (
        "fail: ",
        "code 0|code 78 starts nothing|functional, sent all the same|sent",
    ),
    (
        "drain: ",
        "nothing|one|several|sixteen|to the byte|rest unchanged",
    ),
    (
        "trace: ",
        "request|tick|outcome|value|value with no row|value above 256|end",
    ),
    (
        "trace: ",
        "outcome used up by a request|outcome replaced|outcome kept over a tick",
    ),
    (
        "trace: ",
        "no outcome|request of no bytes|longer than 65536",
    ),
    (
        "trace bad: ",
        "cut head|cut body|unknown kind|kind 1 below 16|kind 2 not 8|kind 3 empty",
    ),
    ("trace bad: ", "kind 4 below 3"),
];

pub fn all() -> Vec<String> {
    let line = |(head, names): &(&str, &str)| -> Vec<String> {
        names
            .split('|')
            .map(|name| format!("{head}{name}"))
            .collect()
    };
    NAMES.iter().flat_map(line).collect()
}

#[cfg(test)]
mod tests {
    #[test]
    fn no_name_stands_twice() {
        let mut names = super::all();
        let count = names.len();
        names.sort();
        names.dedup();
        assert_eq!(names.len(), count);
    }
}
