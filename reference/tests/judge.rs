//! The judge: what it replies, and that runs bear it out.

mod bench;
use bench::*;
use reference::bitmaps::PANE_ADDRESS;
use reference::calls::lend;
use reference::decode::Command;
use reference::generator::script;
use reference::judge::{Verdict, MOST_WALKED};
use reference::script::{decimal, hex, lines_of, Language, Session};
use reference::step::{step, Outcome};
use reference::words::{address_of, word_at};

/// A short sequence of random numbers.
struct Numbers(u64);

impl Numbers {
    fn below(&mut self, limit: u64) -> u64 {
        self.0 ^= self.0 << 13;
        self.0 ^= self.0 >> 7;
        self.0 ^= self.0 << 17;
        self.0 % limit
    }
}

fn clean(commands: u32) -> Verdict {
    Verdict::Clean { commands }
}

fn found(number: u32, address: u32) -> Verdict {
    Verdict::Found { number, address }
}

/// What the judge says of words at 0 of a pane of 8 by 4 pixels, 2 bits each,
/// whose store has 1,024 bytes. It changes nothing.
fn verdict(words: &[u16]) -> Verdict {
    let mut bench = Bench::whole(8, 4, 2);
    bench.put_words(0, words);
    let before = bench.clone();
    let verdict = bench.judge(0, 0).unwrap();
    assert_eq!(bench, before);
    verdict
}

/// What a run meets from a cleared pane, one command after another, each of
/// them done with all its pixels: the papers' definition, on a copy.
fn met_by_running(bench: &Bench, pane: u32, address: u32) -> Verdict {
    let mut bench = bench.clone();
    bench.clear(pane).unwrap();
    bench.start(pane, address).unwrap();
    let mut commands = 0;
    loop {
        let (screen, stores) = (&mut bench.screen, &mut bench.stores);
        let mut lent = lend(&mut bench.console, screen, stores, pane as usize);
        let pointer = lent.record.pointer;
        let words: Vec<u16> = (0..3)
            .map_while(|k| word_at(lent.store, u64::from(pointer) + 2 * k))
            .collect();
        let outcome = step(&mut lent);
        match outcome {
            Outcome::Ended => return clean(commands),
            _ if commands == 4096 => return found(32, pointer),
            Outcome::Done {
                command: Command::Link { .. },
                ..
            } => return found(31, pointer),
            Outcome::Done {
                command: Command::DefBitmap { address, .. },
                ..
            } if address != PANE_ADDRESS => return found(31, pointer),
            // 31 comes before DEF_BITMAP's own fault, which is 22.
            Outcome::Faulted(fault) => {
                let elsewhere = fault.0 == 22
                    && words[0] >> 8 == 0x1A
                    && address_of(words[1], words[2]) != 0x20_0000;
                return found(if elsewhere { 31 } else { fault.0 }, pointer);
            }
            Outcome::Done { .. } => commands += 1,
        }
    }
}

/// "Runs of any budgets from there … never fault, and reach status 2 once the
/// budgets add to more than the commands walked." Else "the first fault the run
/// would meet", and nothing before it. The budgets are random.
fn bears_out(bench: &Bench, pane: u32, address: u32, verdict: Verdict, numbers: &mut Numbers) {
    let mut bench = bench.clone();
    bench.clear(pane).unwrap();
    bench.start(pane, address).unwrap();
    let (mut budgets, mut done) = (0, 0);
    loop {
        let budget = match numbers.below(4) {
            0 => 0,
            1 => numbers.below(4) as u32,
            2 => numbers.below(40) as u32,
            _ => numbers.below(5000) as u32,
        };
        // A run goes on past what 31 and 32 name: it is watched up to there.
        let pointer = bench.look(pane).unwrap().pointer;
        let most = match verdict {
            Verdict::Found { number: 32, .. } => MOST_WALKED - budgets,
            Verdict::Found {
                number: 31,
                address,
            } if pointer == address => return,
            Verdict::Found { number: 31, .. } => 1,
            _ => u32::MAX,
        };
        let budget = budget.min(most);
        let reply = bench.run(pane, budget).unwrap();
        let look = bench.look(pane).unwrap();
        budgets += budget;
        done += reply.commands;
        match verdict {
            Verdict::Clean { commands } => {
                let expected = if budgets > commands {
                    (2, commands)
                } else {
                    (1, budgets)
                };
                assert_eq!((reply.status, done), expected);
                if budgets > commands {
                    return;
                }
            }
            Verdict::Found { number: 31, .. } => assert_eq!((reply.status, done), (1, budgets)),
            Verdict::Found {
                number: 32,
                address,
            } => {
                assert_eq!((reply.status, done), (1, budgets));
                if budgets == MOST_WALKED {
                    assert_eq!(look.pointer, address);
                    return;
                }
            }
            Verdict::Found { number, address } => {
                if reply.status == 3 {
                    assert_eq!((look.fault, look.pointer), (number, address));
                    assert!(done < budgets && done < MOST_WALKED);
                    return;
                }
                assert_eq!((reply.status, done), (1, budgets));
                assert!(budgets <= MOST_WALKED);
            }
        }
    }
}

/// Every judge of the random scripts says what a run meets.
#[test]
fn runs_bear_out_the_verdicts_of_random_scripts() {
    let mut numbers = Numbers(5);
    let (mut clean_ones, mut others) = (0, 0);
    for seed in 1..=150 {
        let mut session = Session::new(Language::Calls);
        let text = script(Language::Calls, seed);
        for line in lines_of(&text) {
            let reply = session.line(line).unwrap_or_default();
            let fields: Vec<&[u8]> = line.split(|byte| *byte == b',').collect();
            let ([b"j", pane, address], Some(values)) = (&fields[..], reply.strip_prefix("j,0,"))
            else {
                continue;
            };
            let (pane, address) = (decimal(pane).unwrap(), hex(address).unwrap());
            let bench = Bench {
                console: session.console.clone().unwrap(),
                screen: session.screen.clone(),
                stores: session.stores.clone(),
            };
            let verdict = met_by_running(&bench, pane, address);
            let expected = match verdict {
                Verdict::Clean { commands } => format!("0,{commands}"),
                Verdict::Found { number, address } => format!("{number},{address:x}"),
            };
            assert_eq!(values, expected, "seed {seed}");
            bears_out(&bench, pane, address, verdict, &mut numbers);
            if matches!(verdict, Verdict::Clean { .. }) {
                clean_ones += 1;
            } else {
                others += 1;
            }
        }
    }
    assert!(clean_ones >= 200 && others >= 500);
}

/// Random commands that call one another, each address of the store judged.
#[test]
fn runs_bear_out_the_verdicts_of_random_words() {
    let mut numbers = Numbers(77);
    let (mut clean_ones, mut deep) = (0, 0);
    for round in 0..200 {
        let depth = [1, 2, 4, 8][round as usize % 4];
        let rows = [row(3, 2, 13, 9, 30, 400), row(16, 2, 9, 9, 430, 40)];
        let mut bench = Bench::open(40, 20, depth, &rows);
        let bitmap = pane_bitmap(13, 9, depth as u16);
        bench.put_words(0, &bitmap);
        let mut starts = vec![0, 12];
        let mut address = 12;
        while address < 380 {
            let place = starts[numbers.below(starts.len() as u64) as usize] as u16;
            let small = numbers.below(9) as u16;
            let words = match numbers.below(16) {
                0..=2 => vec![0x0F00, place, 0],
                3 | 4 => vec![0x1700],
                5 => vec![0x0001],
                6 => vec![0x0300],
                7 => at(3, 4).to_vec(),
                8 => vec![0x5400, small, 2],
                9 => vec![0x8E00, small.wrapping_sub(1)],
                10 => vec![0x7400, place + small / 8, 0, small / 2],
                11 => vec![0x0A00 | small << 8 & 0x0100, place, 0],
                12 => vec![0xA600, place, 0, small / 4],
                13 => bitmap.to_vec(),
                14 => vec![0x6400, small, small, 1, 1],
                _ => vec![numbers.below(65536) as u16],
            };
            bench.put_words(address, &words);
            starts.push(address);
            address += 2 * words.len() as u32;
        }
        for start in (0..400).step_by(2) {
            let verdict = bench.judge(0, start).unwrap();
            assert_eq!(verdict, met_by_running(&bench, 0, start));
            bears_out(&bench, 0, start, verdict, &mut numbers);
            match verdict {
                Verdict::Clean { commands } => clean_ones += u32::from(commands > 3),
                Verdict::Found { number, .. } => deep += u32::from(number == 26 || number == 32),
            }
        }
    }
    assert!(clean_ones >= 200 && deep >= 200, "{clean_ones}, {deep}");
}

/// NOPs without an end, and what stands after 4,096 of them.
#[test]
fn the_limit_comes_before_all_but_an_end_word() {
    let judged = |after: &[u16], length: u32| {
        let mut bench = Bench::open(8, 4, 2, &[row(0, 0, 8, 4, 0, length)]);
        bench.put_words(0, &[0x0300; 4096]);
        bench.put_words(8192, after);
        bench.judge(0, 0).unwrap()
    };
    assert_eq!(judged(&[0x0001], 8194), clean(4096));
    assert_eq!(judged(&[0xFFFF], 8194), clean(4096));
    for after in [0x0300, 0x0200, 0x1A00, 0x0F00, 0x1700, 0x5300, 0xFF00] {
        assert_eq!(judged(&[after], 8194), found(32, 8192));
        assert_eq!(judged(&[after, 0, 0, 0, 0, 0], 8204), found(32, 8192));
    }
    assert_eq!(judged(&[], 8192), found(32, 8192));
    // One command less, and each is named as it is.
    let judged = |after: &[u16], length: u32| {
        let mut bench = Bench::open(8, 4, 2, &[row(0, 0, 8, 4, 0, length)]);
        bench.put_words(0, &[0x0300; 4095]);
        bench.put_words(8190, after);
        bench.judge(0, 0).unwrap()
    };
    assert_eq!(judged(&[0x0001], 8192), clean(4095));
    assert_eq!(judged(&[0x0300, 0x0001], 8194), clean(4096));
    assert_eq!(judged(&[0x0300, 0x0300], 8194), found(32, 8192));
    assert_eq!(judged(&[], 8190), found(21, 8190));
    assert_eq!(judged(&[0x0200], 8192), found(21, 8190));
    assert_eq!(judged(&[0x0200, 0, 0], 8196), found(31, 8190));
    assert_eq!(judged(&[0xFF00], 8192), found(20, 8190));
    assert_eq!(judged(&[0x1700], 8192), found(27, 8190));
    // CALL is the 4,096th: what it leads to is not looked at, but an end word.
    assert_eq!(judged(&[0x0F00, 1, 0], 8196), found(32, 1));
    assert_eq!(judged(&[0x0F00, 0xFFFE, 0x3F], 8196), found(32, 0x3F_FFFE));
    assert_eq!(judged(&[0x0F00, 8196, 0, 0x0001], 8198), clean(4096));
}

/// "LINK, or a DEF_BITMAP whose address isn't 200000 hex, gets 31, ahead of that
/// command's own faults other than 21."
#[test]
fn number_31() {
    assert_eq!(verdict(&[0x0200, 4, 0]), found(31, 0));
    assert_eq!(verdict(&[0x0300, 0x0200, 1, 0]), found(31, 2));
    // A good bitmap in the store, and bad ones: 22 in a run.
    assert_eq!(verdict(&[0x1A00, 64, 0, 7, 3, 2, 1]), found(31, 0));
    assert_eq!(verdict(&[0x1A00, 65, 0, 7, 3, 2, 1]), found(31, 0));
    assert_eq!(verdict(&[0x1A00, 2, 0x20, 7, 3, 2, 1]), found(31, 0));
    // Reserved bits of the address are ignored.
    assert_eq!(verdict(&[0x1A00, 0, 0xFFE0, 7, 3, 2, 1]), clean(1));
    assert_eq!(verdict(&[0x1A00, 0, 0xFFA0, 7, 3, 2, 1]), clean(1));
    assert_eq!(verdict(&[0x1A00, 0, 0x10, 7, 3, 2, 1]), found(31, 0));
    // The pane with another size.
    assert_eq!(verdict(&[0x1A00, 0, 0x20, 6, 3, 2, 1]), found(22, 0));
    // An end word with LINK's opcode is an end word.
    assert_eq!(verdict(&[0x0201]), clean(0));
    // An earlier fault is met first.
    assert_eq!(verdict(&[0x1700, 0x0200, 0, 0]), found(27, 0));
}
