//! Scripts from a seed. The rules run along, so that calls can aim at what the state makes interesting.

use form::parse::Line;
use form::play::Player;
use form::{Config, Request, print};
use rules::Rules;

use crate::rng::Rng;
use crate::{configs, frames, states};

pub struct Maker {
    pub rng: Rng,
    pub player: Player,
    rules: Rules,
    pub now: u64,
    lines: Vec<Line>,
}

/// Script number `number` of a seed.
pub fn script(seed: u64, number: u64) -> Vec<Line> {
    let mut rng = Rng::new(seed ^ number.wrapping_mul(0xD6E8_FEB8_6659_FD93));
    rng.next();
    let now = rng.pick(&[0, 100, 7000, 1_000_000, states::LATEST - 6000]);
    let mut maker = Maker {
        rng,
        player: Player::default(),
        rules: Rules::default(),
        now,
        lines: Vec::new(),
    };
    maker.begin();
    let calls = 4 + maker.rng.below(20);
    for _ in 0..calls {
        if maker.rng.chance(12) {
            maker.scene();
        }
        maker.call();
    }
    maker.lines
}

pub fn text(lines: &[Line]) -> String {
    lines.iter().map(|line| print::line(line) + "\n").collect()
}

fn rows(c: &Config) -> Vec<Line> {
    let mut lines = vec![Line::Config(c.physical, c.functional)];
    lines.extend(c.sessions.iter().cloned().map(Line::Session));
    lines.extend(c.services.iter().cloned().map(Line::Service));
    lines.extend(c.identifiers.iter().cloned().map(Line::Identifier));
    lines.extend(c.levels.iter().cloned().map(Line::Level));
    lines
}

impl Maker {
    pub fn add(&mut self, line: Line) {
        let mut out = String::new();
        let step = self.player.step(&mut self.rules, &line, &mut out);
        assert!(step.is_some(), "{line:?} asks for more than the types hold");
        self.lines.push(line);
    }

    fn begin(&mut self) {
        let c = configs::config(&mut self.rng);
        // Rows that a server with narrower types could not hold are only offered to `fresh`.
        let fault = form::numbers::config_fault(&c);
        let hold = self.rng.chance(55) && matches!(fault, None | Some("seed or key"));
        for line in rows(&c) {
            self.add(line);
        }
        self.add(if hold { Line::Hold } else { Line::Fresh });
        for line in states::values(&mut self.rng, &c) {
            self.add(line);
        }
        if hold {
            for line in states::state(&mut self.rng, &c, self.now) {
                self.add(line);
            }
        }
    }

    fn time(&mut self) -> u64 {
        let s = &self.player.server;
        let time = states::time(&mut self.rng, &s.config, &s.state, self.now);
        if time <= states::LATEST {
            self.now = time;
        }
        time
    }

    fn request(&mut self) -> Request {
        let time = self.time();
        let s = &self.player.server;
        let c = &s.config;
        let foreign = self.rng.pick(&[0, 17, 0x10010, u32::MAX]);
        let dst = match self.rng.below(20) {
            0 => foreign,
            1..7 => u32::from(c.functional),
            _ => u32::from(c.physical),
        };
        let frame = frames::frame(&mut self.rng, s);
        Request {
            time,
            src: states::client(&mut self.rng),
            dst,
            frame,
        }
    }

    fn call(&mut self) {
        let pending = self.player.server.state.pending.is_some();
        match self.rng.below(100) {
            0..55 => {
                let r = self.request();
                let o = frames::outcome(&mut self.rng, &self.player.server, &r.frame);
                if self.rng.chance(20) {
                    self.add(Line::Question(r.clone()));
                }
                self.add(Line::Request(r, o));
            }
            55..60 => {
                let r = self.request();
                self.add(Line::Question(r));
            }
            60..80 => {
                let time = self.time();
                self.add(Line::Tick(time));
            }
            80..88 => self.finish(pending),
            88..93 => self.drain(),
            93..96 => self.new_values(),
            _ if pending => self.finish(pending),
            _ => self.drain(),
        }
    }

    /// Ends the pending request; where there is none, only now and then.
    fn finish(&mut self, pending: bool) {
        if !pending && self.rng.chance(70) {
            return;
        }
        let time = self.time();
        if self.rng.chance(50) {
            let length = self.rng.pick(&[0, 1, 3, 254, 255, 256, 257]);
            let bytes = self.rng.bytes(length);
            self.add(Line::Complete(time, bytes));
        } else {
            let code = self
                .rng
                .pick(&[0, 0x11, 0x12, 0x22, 0x31, 0x72, 0x78, 0x7E, 0x7F, 0xFF]);
            self.add(Line::Fail(time, code));
        }
    }

    /// A buffer around the length that the queue needs.
    fn drain(&mut self) {
        let need = form::numbers::records(&self.player.server.state.queue).len();
        let length = match self.rng.below(6) {
            0 => need,
            1 => need.saturating_sub(1),
            2 => need / 2,
            3 => 0,
            _ => need + 1 + self.rng.below(20),
        };
        let fill = self.rng.pick(&[0, 0xAA, 0xFF]);
        self.add(Line::Drain { length, fill });
    }

    fn new_values(&mut self) {
        let c = self.player.server.config.clone();
        for line in states::values(&mut self.rng, &c) {
            self.add(line);
        }
    }
}

#[cfg(test)]
mod tests {
    use super::*;
    use form::parse::parse;

    #[test]
    fn every_line_reads_back() {
        for number in 0..300 {
            for line in script(11, number) {
                assert_eq!(parse(&print::line(&line)), Some(line));
            }
        }
    }

    #[test]
    fn one_seed_makes_one_script() {
        assert_eq!(script(11, 5), script(11, 5));
        assert_ne!(script(11, 5), script(12, 5));
    }
}
