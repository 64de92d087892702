//! What random scripts do: how often each command is done, each fault and each
//! refusal comes, what POLYLINEs are like, by which clips the pane is drawn on,
//! what they do with the trap switch, and which wrong rules for the pixels of a
//! run they tell from the right one.

use super::clips::Clips;
use super::paint::{record_of, Paint, Watch};
use super::script;
use super::stops::Stops;
use crate::bitmaps::{Bitmap, PANE_ADDRESS};
use crate::calls::lend;
use crate::decode::Command;
use crate::judge::MOST_WALKED;
use crate::record::{PaneRecord, RUNNING, TRAPPED};
use crate::script::{decimal, hex, lines_of, Language, Session, LARGEST_STORES};
use crate::step::{array, step, Outcome};
use std::collections::BTreeMap;

/// Counts over many scripts.
#[derive(Default)]
pub struct Stats {
    pub scripts: u64,
    pub bytes: u64,
    pub lines: u64,
    pub malformed: u64,
    /// Commands done by name, and how many of them changed a pixel or the pick
    /// flag.
    pub commands: BTreeMap<String, (u64, u64)>,
    /// POLYLINEs that changed a pixel or the pick flag, by what was special.
    pub polylines: BTreeMap<&'static str, u64>,
    /// Scripts with a drawing on the pane, by what its clip was.
    pub clips: BTreeMap<&'static str, u64>,
    /// Scripts in which this was done with the trap switch.
    pub stops: BTreeMap<&'static str, u64>,
    /// Scripts in which some run would report other pixels by a wrong rule.
    pub wrong_pixels: BTreeMap<&'static str, u64>,
    pub faults: BTreeMap<u32, u64>,
    /// Faults by the command's opcode byte.
    pub fault_opcodes: BTreeMap<(u32, u8), u64>,
    pub refusals: BTreeMap<(char, u32), u64>,
    pub pixels: u64,
    pub pixels_not_zero: u64,
    pub peeks: u64,
    /// How many of them read a byte that a run had changed.
    pub peeks_of_drawn: u64,
    /// What judges replied: 0 is clean.
    pub verdicts: BTreeMap<u32, u64>,
    /// How many of the clean lists have as many commands as a judge walks.
    pub clean_at_limit: u64,
    /// How many verdicts were followed by a run of that list on the cleared
    /// pane.
    pub verdicts_run: u64,
    pub depths: BTreeMap<u32, u64>,
    pub panes: BTreeMap<usize, u64>,
    pub picked: u64,
    pub trapped: u64,
    pub ended: u64,
    /// Commands done in a script, most first.
    pub most_commands: u64,
    pub scripts_with_few: u64,
}

impl Stats {
    /// Runs the scripts of so many seeds, from 1 on.
    pub fn of(language: Language, count: u64) -> Stats {
        let mut stats = Stats::default();
        for seed in 1..=count {
            stats.add(language, &script(language, seed));
        }
        stats
    }

    fn add(&mut self, language: Language, text: &[u8]) {
        self.scripts += 1;
        self.bytes += text.len() as u64;
        let mut session = Session::new(language);
        let mut done = 0;
        let mut drawn = vec![false; LARGEST_STORES as usize];
        let mut before: Vec<&[u8]> = Vec::new();
        let mut paint = Paint::default();
        let mut clips = Clips::default();
        let mut stops = Stops::default();
        for line in lines_of(text) {
            self.lines += 1;
            let mut watches = Watches {
                paint: &mut paint,
                clips: &mut clips,
                stops: &mut stops,
            };
            done += self.watch_run(&session, line, &mut watches);
            let stores = session.stores.clone();
            let named = named(&session, line).map(|pane| (pane, record_of(&session, pane)));
            let Some(reply) = session.line(line) else {
                self.malformed += 1;
                continue;
            };
            let fields: Vec<&str> = reply.split(',').collect();
            let letter = reply.chars().next().unwrap_or(' ');
            let number = fields
                .get(1)
                .and_then(|field| field.parse().ok())
                .unwrap_or(0);
            *self.refusals.entry((letter, number)).or_default() += 1;
            if let Some((pane, record)) = named.filter(|_| number == 0) {
                if letter == 'g' {
                    paint.since_start[pane] = 0;
                    clips.start(pane);
                }
                let value = line.rsplit(|byte| *byte == b',').next().unwrap_or_default();
                let after = record_of(&session, pane);
                stops.call(letter, value, pane, [&record, &after]);
            }
            if letter == 'x' && number == 0 {
                self.pixels += 1;
                self.pixels_not_zero += u64::from(fields.last() != Some(&"0"));
            }
            if letter == 'k' && number == 0 {
                self.peeks += 1;
                let at = peeked(&session, line);
                self.peeks_of_drawn += u64::from(at.is_some_and(|at| drawn[at]));
            }
            if letter == 'j' && number == 0 {
                let verdict = fields[2].parse().unwrap_or(0);
                *self.verdicts.entry(verdict).or_default() += 1;
                let limit = MOST_WALKED.to_string();
                self.clean_at_limit += u64::from(verdict == 0 && fields[3] == limit);
            }
            self.verdicts_run += u64::from(follows_judge(&before, line));
            before.push(line);
            if letter == 'r' {
                for (at, (old, new)) in stores.iter().zip(&session.stores).enumerate() {
                    drawn[at] |= old != new;
                }
            }
            if letter == 'l' && number == 0 {
                self.picked += u64::from(fields[7] == "1");
                self.trapped += u64::from(fields[8] == "1");
            }
        }
        for what in clips.met {
            *self.clips.entry(what).or_default() += 1;
        }
        for what in stops.met {
            *self.stops.entry(what).or_default() += 1;
        }
        for rule in paint.told {
            *self.wrong_pixels.entry(rule).or_default() += 1;
        }
        self.most_commands = self.most_commands.max(done);
        self.scripts_with_few += u64::from(done < 20);
        if let Some(console) = &session.console {
            *self.depths.entry(console.geometry.depth).or_default() += 1;
            *self.panes.entry(session.rows.len()).or_default() += 1;
        }
    }

    /// If the line is a run, does it on a copy and counts each command.
    fn watch_run(&mut self, session: &Session, line: &[u8], watches: &mut Watches) -> u64 {
        let fields: Vec<&[u8]> = line.split(|byte| *byte == b',').collect();
        let [b"r", pane, budget] = fields[..] else {
            return 0;
        };
        let (Some(pane), Some(budget)) = (decimal(pane), decimal(budget)) else {
            return 0;
        };
        let mut copy = session.clone();
        let Some(console) = copy.console.as_mut() else {
            return 0;
        };
        let runs = |record: &PaneRecord| matches!(record.status, RUNNING | TRAPPED);
        if pane >= console.row_count || !runs(&console.panes[pane as usize]) {
            return 0;
        }
        console.panes[pane as usize].resume();
        let mut watch = Watch::new(watches.paint, pane as usize);
        let mut done = 0;
        while done < u64::from(budget) {
            let before = copy.clone();
            let Some(console) = copy.console.as_mut() else {
                break;
            };
            let mut lent = lend(console, &mut copy.screen, &mut copy.stores, pane as usize);
            let (flag, pointer) = (lent.record.pick_flag, lent.record.pointer);
            let from = (lent.record.x, lent.record.y);
            let active = lent.record.bitmap;
            let byte_mode = lent.record.font.is_some_and(|font| font.byte_mode);
            let outcome = step(&mut lent);
            let picked = !flag && lent.record.pick_flag;
            let opcode = lent.store.get(pointer as usize + 1).copied().unwrap_or(0);
            let special = match outcome {
                Outcome::Done {
                    command: Command::Polyline { address, count },
                    ..
                } => special_of(lent.record, from, &array(&lent, address, count)),
                _ => Vec::new(),
            };
            watch.command(&before, outcome);
            watches.clips.command(&before, pane as usize, outcome);
            let record = lent.record.clone();
            let stops = &mut *watches.stops;
            stops.command(&before, pane as usize, outcome, &record);
            match outcome {
                Outcome::Done { command, .. } => {
                    let changed =
                        picked || copy.screen != before.screen || copy.stores != before.stores;
                    for name in special.into_iter().filter(|_| changed) {
                        *self.polylines.entry(name).or_default() += 1;
                    }
                    let entry = self
                        .commands
                        .entry(kind(&command, active, byte_mode))
                        .or_default();
                    entry.0 += 1;
                    entry.1 += u64::from(changed);
                    done += 1;
                    if record.status == TRAPPED {
                        break;
                    }
                }
                Outcome::Ended => {
                    self.ended += 1;
                    break;
                }
                Outcome::Faulted(fault) => {
                    *self.faults.entry(fault.0).or_default() += 1;
                    *self.fault_opcodes.entry((fault.0, opcode)).or_default() += 1;
                    break;
                }
            }
        }
        watch.end();
        done
    }

    /// The counts as text.
    pub fn report(&self) -> String {
        let mut text = Vec::new();
        let scripts = self.scripts.max(1);
        let done: u64 = self.commands.values().map(|counts| counts.0).sum();
        text.push(format!(
            "{} scripts, {} bytes and {} lines each, {} lines print ?",
            self.scripts,
            self.bytes / scripts,
            self.lines / scripts,
            self.malformed
        ));
        text.push(format!(
            "{} commands done each, {} at most, {} scripts with fewer than 20",
            done / scripts,
            self.most_commands,
            self.scripts_with_few
        ));
        text.push(format!(
            "{} pixels read each, {} of them not 0",
            self.pixels / scripts,
            self.pixels_not_zero / scripts
        ));
        if self.peeks > 0 {
            text.push(format!(
                "{} bytes peeked, {} of them changed by a run",
                self.peeks, self.peeks_of_drawn
            ));
        }
        if !self.verdicts.is_empty() {
            text.push(format!(
                "verdicts {:?}, {} of those with 0 at the limit, {} then run on the cleared pane",
                self.verdicts, self.clean_at_limit, self.verdicts_run
            ));
        }
        text.push(format!("depths {:?}, panes {:?}", self.depths, self.panes));
        text.push(format!(
            "runs to an end word {}, looks with pick flag {}, with trap flag {}",
            self.ended, self.picked, self.trapped
        ));
        text.push("command: done, changed a pixel or set the pick flag".to_string());
        for (name, (count, changed)) in &self.commands {
            text.push(format!("  {name}: {count}, {changed}"));
        }
        text.push("POLYLINEs that changed a pixel or set the pick flag".to_string());
        for (name, count) in &self.polylines {
            text.push(format!("  {name}: {count}"));
        }
        text.push("drawing on the pane: scripts that have it".to_string());
        for (what, count) in &self.clips {
            text.push(format!("  {what}: {count}"));
        }
        if !self.stops.is_empty() {
            text.push("trap switch: scripts that have it".to_string());
        }
        for (what, count) in &self.stops {
            text.push(format!("  {what}: {count}"));
        }
        text.push("wrong rule for a run's pixels: scripts that tell it".to_string());
        for (rule, count) in &self.wrong_pixels {
            text.push(format!("  {rule}: {count}"));
        }
        text.push("fault: times, by opcode".to_string());
        for (number, count) in &self.faults {
            let opcodes: Vec<String> = self
                .fault_opcodes
                .iter()
                .filter(|((fault, _), _)| fault == number && *number != 20)
                .map(|((_, opcode), times)| format!("{opcode:02x} {times}"))
                .collect();
            text.push(format!("  {number}: {count} ({})", opcodes.join(", ")));
        }
        text.push("call and refusal: times".to_string());
        for ((letter, number), count) in &self.refusals {
            if *letter != ' ' {
                text.push(format!("  {letter},{number}: {count}"));
            }
        }
        text.join("\n")
    }
}

/// What is watched in the runs of a script.
struct Watches<'a> {
    paint: &'a mut Paint,
    clips: &'a mut Clips,
    stops: &'a mut Stops,
}

/// Whether a line runs a pane, after three that judge an address, clear the
/// pane and start there.
fn follows_judge(before: &[&[u8]], line: &[u8]) -> bool {
    let [.., judge, clear, start] = before else {
        return false;
    };
    let (Some(judged), Some(started)) = (judge.strip_prefix(b"j"), start.strip_prefix(b"g")) else {
        return false;
    };
    judged == started && clear.starts_with(b"c") && line.starts_with(b"r")
}

/// The pane that a line's second field names, if there is one.
fn named(session: &Session, line: &[u8]) -> Option<usize> {
    let field = line.split(|byte| *byte == b',').nth(1)?;
    let pane = decimal(field)?;
    let console = session.console.as_ref()?;
    (pane < console.row_count).then_some(pane as usize)
}

/// Where the byte of an accepted peek stands in the stores.
fn peeked(session: &Session, line: &[u8]) -> Option<usize> {
    let fields: Vec<&[u8]> = line.split(|byte| *byte == b',').collect();
    let [_, pane, address] = fields[..] else {
        return None;
    };
    let row = session.rows.get(decimal(pane)? as usize)?;
    Some((row.store_start + hex(address)?) as usize)
}

/// What is special about a POLYLINE of these pairs, done from a position.
fn special_of(record: &PaneRecord, from: (i16, i16), pairs: &[[i64; 2]]) -> Vec<&'static str> {
    let [first, later @ ..] = pairs else {
        return Vec::new();
    };
    let dashed = !matches!(record.pattern, 0 | 0xFFFF);
    let closed = (0..2).all(|axis| pairs.iter().map(|pair| pair[axis]).sum::<i64>() == 0);
    let closed = closed && !later.is_empty();

    // Which places where segments start and end are in the clip, and whether
    // the position wrapped to a joint there.
    let mut places = Vec::new();
    let mut wrapped = false;
    let mut walker = record.clone();
    (walker.x, walker.y) = from;
    let mut unwrapped = walker.position();
    for [dx, dy] in pairs {
        let (x, y) = walker.position();
        let inside = record.clip.holds(x, y);
        places.push(inside);
        wrapped |= inside && (x, y) != unwrapped;
        unwrapped = (x + dx, y + dy);
        walker.move_by(*dx, *dy);
    }
    let (x, y) = walker.position();
    places.push(record.clip.holds(x, y));
    let mut rest = places.iter().skip_while(|inside| !**inside);
    let returned = rest.any(|inside| !inside) && rest.any(|inside| *inside);

    let mut found = Vec::new();
    for (name, is_so) in [
        ("dashed, 3 segments or more", dashed && pairs.len() >= 3),
        ("first segment of length 0", *first == [0, 0]),
        ("later segment of length 0", later.contains(&[0, 0])),
        ("closed", closed),
        ("closed under exclusive or", closed && record.operation == 6),
        ("joint outside the clip between two places in it", returned),
        ("position wrapped to a joint in the clip", wrapped),
    ] {
        if is_so {
            found.push(name);
        }
    }
    found
}

/// A command's name; for a drawing command also where it draws, and how.
fn kind(command: &Command, active: Bitmap, byte_mode: bool) -> String {
    let how = match command {
        Command::Char { .. } if byte_mode => " of bytes",
        Command::Char { .. } => " of words",
        Command::BitBltM { address, .. } if *address == PANE_ADDRESS => " from pane",
        Command::BitBltM { .. } => " from store",
        Command::Point { .. } | Command::Line { .. } | Command::Rect { .. } => "",
        Command::Circle { .. } | Command::Polyline { .. } | Command::ScanLines { .. } => "",
        Command::BitBlt { .. } => "",
        _ => return command.name().to_string(),
    };
    let place = if matches!(active, Bitmap::Store { .. }) {
        "store"
    } else {
        "pane"
    };
    format!("{}{how} in {place}", command.name())
}
