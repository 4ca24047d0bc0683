//! Plays a script on an engine.

use std::fmt::Write;

use crate::numbers;
use crate::parse::{Line, parse};
use crate::print;
use crate::types::*;

/// What a script has built up so far.
pub struct Player {
    rows: Config,
    pub server: Server,
    pub values: Values,
}

impl Default for Player {
    fn default() -> Self {
        let rows = Config::default();
        Self {
            server: Server::fresh(rows.clone()),
            rows,
            values: Values::default(),
        }
    }
}

/// Prints the answer to each call; `bad` ends it at a line that is not of the form.
pub fn script(engine: &mut dyn Engine, text: &str, out: &mut String) {
    let mut player = Player::default();
    for line in text.strip_suffix('\n').unwrap_or(text).split('\n') {
        if parse(line)
            .and_then(|l| player.step(engine, &l, out))
            .is_none()
        {
            out.push_str("bad\n");
            return;
        }
    }
}

impl Player {
    /// `None` where the line asks for more than the published server's types can hold.
    pub fn step(&mut self, engine: &mut dyn Engine, line: &Line, out: &mut String) -> Option<()> {
        match line {
            Line::Config(physical, functional) => {
                self.rows = Config {
                    physical: *physical,
                    functional: *functional,
                    ..Config::default()
                };
            }
            Line::Session(row) => self.rows.sessions.push(row.clone()),
            Line::Service(row) => self.rows.services.push(row.clone()),
            Line::Identifier(row) => self.rows.identifiers.push(row.clone()),
            Line::Level(row) => self.rows.levels.push(row.clone()),
            Line::Hold => self.hold()?,
            Line::Values => self.values = Values::default(),
            Line::Row(row) => self.values.rows.push(row.clone()),
            Line::Pool(bytes) => self.values.pool = bytes.clone(),
            _ if self.hand_in(line) => return numbers::fits(&self.server.state).then_some(()),
            _ => self.call(engine, line, out),
        }
        Some(())
    }

    /// A fresh state over the rows as they stand, tested by no number but how many rows there are.
    fn hold(&mut self) -> Option<()> {
        let fault = numbers::config_fault(&self.rows);
        if matches!(
            fault,
            Some("sessions" | "services" | "identifiers" | "levels")
        ) {
            return None;
        }
        self.server = Server::fresh(self.rows.clone());
        Some(())
    }

    /// Changes the state where the line is part of one.
    fn hand_in(&mut self, line: &Line) -> bool {
        let s = &mut self.server.state;
        match line {
            Line::State {
                session,
                level,
                last_rx,
                functional,
            } => {
                (s.session, s.level) = (*session, *level);
                (s.last_rx, s.functional) = (*last_rx, *functional);
            }
            Line::Pending(p) => s.pending = Some(p.clone()),
            Line::Seed(level, bytes) => (s.seed_level, s.seed) = (*level, bytes.clone()),
            Line::Count(level, n) => s.counts.push((*level, *n)),
            Line::Lock(level, until) => s.locks.push((*level, *until)),
            Line::Periodic(e) => s.periodic.push(e.clone()),
            Line::Queued(dst, frame) => s.queue.push((*dst, frame.clone())),
            _ => return false,
        }
        true
    }

    fn call(&mut self, engine: &mut dyn Engine, line: &Line, out: &mut String) {
        let (s, v) = (&mut self.server, &self.values);
        match line {
            Line::Fresh => {
                let (result, server) = engine.fresh(&self.rows);
                *s = server;
                print::answer(out, "fresh", &Answer::of(result));
            }
            Line::Request(r, o) => {
                let a = engine.request(s, v, r, o);
                print::answer(out, "request", &a);
                print::act(out, &a.act);
            }
            Line::Question(r) => {
                let a = engine.question(s, v, r);
                print::answer(out, "question", &a);
                print::act(out, &a.act);
            }
            Line::Tick(t) => print::answer(out, "tick", &engine.tick(s, v, *t)),
            Line::Complete(t, b) => print::answer(out, "complete", &engine.complete(s, *t, b)),
            Line::Fail(t, code) => print::answer(out, "fail", &engine.fail(s, *t, *code)),
            Line::Drain { length, fill } => {
                let mut buffer = vec![*fill; *length];
                let (result, count) = engine.drain(s, &mut buffer);
                let _ = writeln!(out, "drain {result} {count}");
                print::buffer(out, &buffer, *fill);
            }
            other => unreachable!("{other:?} is not a call"),
        }
        print::state(out, &self.server.state);
    }
}
