//! Random scripts and random stores: nothing makes the console panic, and what
//! must never change does not.

mod bench;
use bench::*;
use reference::generator::{script, stats::Stats};
use reference::script::{answer, lines_of, Language, LONGEST_SCRIPT};

/// A short sequence of random numbers.
struct Numbers(u64);

impl Numbers {
    fn next(&mut self) -> u64 {
        self.0 ^= self.0 << 13;
        self.0 ^= self.0 >> 7;
        self.0 ^= self.0 << 17;
        self.0
    }
}

const LANGUAGES: [Language; 2] = [Language::Panes, Language::Calls];

#[test]
fn random_scripts_are_short_and_depend_on_the_seed_alone() {
    for language in LANGUAGES {
        for seed in 1..60 {
            let text = script(language, seed);
            assert!(text.len() <= LONGEST_SCRIPT);
            assert_eq!(text, script(language, seed));
            assert!(answer(language, &text).ends_with('\n'));
        }
    }
}

/// A script that printed nothing would compare nothing. These seeds once made
/// empty scripts.
#[test]
fn every_random_script_prints_something() {
    for seed in [871, 1263, 2410] {
        for language in LANGUAGES {
            assert!(!answer(language, &script(language, seed)).is_empty());
        }
    }
}

/// Bytes of good scripts are changed at random.
#[test]
fn spoiled_scripts_are_answered() {
    let mut numbers = Numbers(7);
    for seed in 1..120 {
        let language = LANGUAGES[seed as usize % 2];
        let mut text = script(language, seed);
        for _ in 0..8 {
            if !text.is_empty() {
                let index = (numbers.next() % text.len() as u64) as usize;
                // No digit but 0 and 1, lest a budget become very large.
                text[index] =
                    [b',', b'\n', b'0', b'1', 0, 255, b'f', b'-'][(numbers.next() % 8) as usize];
            }
        }
        answer(language, &text);
    }
}

/// Random words, most of them with known opcodes, run on a pane in the middle
/// of a screen, half of them with the trap switch on. The rest of the screen and
/// of the stores keeps every bit.
#[test]
fn random_words_keep_to_their_pane() {
    let opcodes: Vec<u16> = (0..256)
        .filter(|opcode| reference::decode::is_known(*opcode))
        .collect();
    let mut numbers = Numbers(99);
    for round in 0..400u32 {
        let depth = [1, 2, 4, 8][round as usize % 4];
        let mut bench = Bench::open(
            40,
            20,
            depth,
            &[row(11, 5, 13, 9, 31, 600), row(24, 5, 9, 9, 631, 40)],
        );
        for byte in bench.screen.iter_mut().chain(bench.stores.iter_mut()) {
            *byte = numbers.next() as u8;
        }
        for address in (0..600).step_by(2) {
            let opcode = opcodes[(numbers.next() % opcodes.len() as u64) as usize];
            let small = numbers.next() as u16 & 0x1E;
            let word = match numbers.next() % 3 {
                0 => opcode << 8,
                1 => small,
                _ => 0u16.wrapping_sub(small),
            };
            bench.put_words(address, &[word]);
        }
        bench.put_words(0, &pane_bitmap(13, 9, depth as u16));
        assert_eq!(bench.switch(0, round / 4 % 2), Ok(()));
        let before = bench.clone();
        for start in [0, 12, 100, 102, 200, 300, 400, 500] {
            bench.start(0, start).unwrap();
            let reply = bench.run(0, 300).unwrap();
            assert!(reply.commands <= 300 && reply.status != 0);
            // Every call after it still takes the record.
            assert!(bench.look(0).is_ok());
        }
        assert_eq!(bench.stores[..31], before.stores[..31]);
        assert_eq!(bench.stores[631..], before.stores[631..]);
        for x in 0..9 {
            for y in 0..9 {
                assert_eq!(bench.pixel(1, x, y), before.pixel(1, x, y));
            }
        }
        assert_eq!(bench.console.panes[1], before.console.panes[1]);
    }
}

/// The random scripts meet every command, fault and refusal that they can.
#[test]
fn random_scripts_cover_the_papers() {
    let stats = Stats::of(Language::Panes, 150);
    for name in [
        "NOP",
        "LINK",
        "CALL",
        "RETURN",
        "ABS_MOV",
        "REL_MOV",
        "DEF_BITMAP",
        "DEF_CLIP_RECT",
        "DEF_COLORS",
        "DEF_LOGICAL_OP",
        "DEF_TEXTURE",
        "DEF_SPACE",
        "DEF_CHAR_ORIENT",
        "DEF_CHAR_SET",
        "ENTER_PICK",
        "EXIT_PICK",
        "POINT",
        "LINE",
        "RECT",
        "CIRCLE",
        "POLYLINE",
        "SCAN_LINES",
        "BIT_BLT",
        "BIT_BLT_M",
        "CHAR",
    ] {
        assert!(
            stats
                .commands
                .keys()
                .any(|key| key.split(' ').next() == Some(name)),
            "{name}"
        );
    }
    for fault in 20..=30 {
        assert!(stats.faults.contains_key(&fault), "fault {fault}");
    }
    for refusal in [1, 2, 3, 4, 5, 6, 8, 9, 10] {
        assert!(
            stats.refusals.keys().any(|key| key.1 == refusal),
            "refusal {refusal}"
        );
    }
}

/// Their POLYLINEs put the rule for joints to the test: what is skipped, what
/// takes a pattern index, and what exclusive or takes out again.
#[test]
fn random_scripts_draw_polylines() {
    let stats = Stats::of(Language::Panes, 300);
    for special in [
        "dashed, 3 segments or more",
        "first segment of length 0",
        "later segment of length 0",
        "closed",
        "closed under exclusive or",
        "joint outside the clip between two places in it",
        "position wrapped to a joint in the clip",
    ] {
        let times = stats.polylines.get(special);
        assert!(times.is_some_and(|times| *times >= 20), "{special}");
    }
}

/// They draw on the pane by clips of every kind, so that a limit that is wrong,
/// or that was not set anew, shows: each of these in one of eight scripts at
/// least.
#[test]
fn random_scripts_draw_by_clips() {
    for language in LANGUAGES {
        let stats = Stats::of(language, 160);
        for what in [
            "cut by a clip",
            "kept away by an empty clip",
            "cut by a clip from before the start",
            "after a bitmap in the store",
            "after a DEF_BITMAP that faulted",
            "after a DEF_CLIP_RECT that faulted",
        ] {
            let scripts = stats.clips.get(what);
            assert!(scripts.is_some_and(|scripts| *scripts >= 20), "{what}");
        }
    }
}

/// Their runs would report other pixels by each of these wrong rules, in one of
/// four scripts at least.
#[test]
fn random_scripts_tell_wrong_pixels() {
    let stats = Stats::of(Language::Panes, 160);
    for rule in [
        "pick mode counted",
        "a drawing that faults counted as one pixel",
        "nothing counted if the run faults",
        "the last command's count alone",
        "places that a command draws twice counted once",
        "places that a run draws twice counted once",
        "pixels outside the clip counted",
        "LINE's pixels outside the bitmap counted",
        "0s under transparency counted",
        "pixels that keep their value not counted",
        "pixels of a bitmap in the store not counted",
        "runs counted on until the next start",
    ] {
        let scripts = stats.wrong_pixels.get(rule);
        assert!(scripts.is_some_and(|scripts| *scripts >= 40), "{rule}");
    }
}

/// Those of `calls` peek and clear well, and meet their refusals; bytes that
/// were drawn are among those peeked.
#[test]
fn random_scripts_of_calls_peek_and_clear() {
    let stats = Stats::of(Language::Calls, 150);
    for (letter, refusal) in [('k', 0), ('k', 1), ('k', 2), ('c', 0), ('c', 1), ('r', 4)] {
        let times = stats.refusals.get(&(letter, refusal));
        assert!(
            times.is_some_and(|times| *times >= 10),
            "{letter},{refusal}"
        );
    }
    assert!(stats.peeks_of_drawn >= 100);
    let panes = Stats::of(Language::Panes, 150);
    assert!(panes.refusals.keys().all(|key| !"kcjt".contains(key.0)));
}

/// They judge lists that are clean, up to the last command that is walked, and
/// lists with every fault; most verdicts are then put to the test by a run.
#[test]
fn random_scripts_of_calls_judge() {
    let stats = Stats::of(Language::Calls, 300);
    for refusal in 0..=3 {
        let times = stats.refusals.get(&('j', refusal));
        assert!(times.is_some_and(|times| *times >= 10), "j,{refusal}");
    }
    for verdict in (20..=32).chain([0]) {
        let times = stats.verdicts.get(&verdict);
        assert!(times.is_some_and(|times| *times >= 10), "verdict {verdict}");
    }
    assert!(stats.clean_at_limit >= 20);
    assert!(stats.verdicts_run >= 500);
}

/// They turn the trap switch, and what follows would go otherwise by a wrong rule
/// for it: the first six of these in one of five scripts at least, each in one
/// of twenty.
#[test]
fn random_scripts_of_calls_stop_at_traps() {
    let stats = Stats::of(Language::Calls, 300);
    for refusal in [0, 1, 33] {
        let times = stats.refusals.get(&('t', refusal));
        assert!(times.is_some_and(|times| *times >= 20), "t,{refusal}");
    }
    for (least, what) in [
        (60, "stopped"),
        (60, "resumed with budget 0, then looked at"),
        (60, "resumed with more"),
        (60, "turned off while stopped"),
        (60, "started while stopped"),
        (60, "CHAR without T, the flag set before"),
        (15, "CHAR of an empty string, the flag set before"),
        (15, "cleared while stopped"),
        (15, "judged while stopped"),
        (15, "looked at while stopped"),
        (15, "resumed and stopped again"),
        (15, "started while stopped, then looked at"),
        (15, "stopped by a T that isn't the last character"),
        (15, "stopped in pick mode"),
        (15, "stopped where nothing is drawn"),
        (15, "turned off while stopped, then looked at"),
        (15, "turned on while stopped"),
    ] {
        let scripts = stats.stops.get(what);
        assert!(scripts.is_some_and(|scripts| *scripts >= least), "{what}");
    }
    assert!(Stats::of(Language::Panes, 150).stops.is_empty());
}

/// Those of `panes` have lines with the letters of `calls`, which it does not
/// take.
#[test]
fn random_scripts_of_panes_have_letters_of_calls() {
    let mut found = [0; 4];
    for seed in 1..=300 {
        let text = script(Language::Panes, seed);
        for (times, letter) in found.iter_mut().zip([b"k,", b"c,", b"j,", b"t,"]) {
            *times += lines_of(&text)
                .iter()
                .filter(|line| line.starts_with(letter))
                .count();
        }
    }
    assert!(found.iter().all(|times| *times >= 5), "{found:?}");
}
