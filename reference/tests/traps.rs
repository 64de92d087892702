//! The trap switch: what stops a run at status 4, what is left there, and how it
//! goes on.

mod bench;
use bench::*;
use reference::calls::RunReply;
use reference::judge::Verdict;
use reference::record::PaneRecord;

/// Where the tests put their font.
const FONT: u16 = 0x200;

/// Words of strings, in word mode: two columns by one row, drawn 11, with and
/// without T; the same with T and S, whose position stays.
const PLAIN: u16 = 0;
const T: u16 = 2;
const T_AND_S: u16 = 4;
/// One cell that is 0, with T: under transparency nothing of it is drawn.
const T_OF_NOTHING: u16 = 6;

/// A pane of 16 by 4 pixels of one bit, with the font chosen, and foreground 1.
/// The list at 0 has ended.
fn paper() -> Bench {
    let mut bench = Bench::whole(16, 4, 1);
    let glyphs = [0x0001, 3, 0x8001, 3, 0xC001, 3, 0x8000, 0];
    bench.put_words(u32::from(FONT), &glyphs);
    let font = [0x0A00, FONT, 0];
    bench.done(&[&pane_bitmap(16, 4, 1), &colors(0xFFFF, 0), &font]);
    bench
}

/// CHAR, transparent, of so many words.
fn text(address: u16, count: u16) -> [u16; 4] {
    [0xA700, address, 0, count]
}

/// Puts strings at 300 hex, then a list at 0 with a CHAR for each of them, each
/// on a row of its own, and starts it. Each string is two commands.
fn started(bench: &mut Bench, strings: &[&[u16]]) {
    let mut words = Vec::new();
    let mut address = 0x300;
    for (y, string) in strings.iter().enumerate() {
        bench.put_words(u32::from(address), string);
        words.extend(at(0, y as i16));
        words.extend(text(address, string.len() as u16));
        address += 2 * string.len() as u16;
    }
    words.push(0x0001);
    bench.put_words(0, &words);
    assert_eq!(bench.start(0, 0), Ok(()));
}

fn ran(commands: u32, status: u32, pixels: u64) -> RunReply {
    RunReply {
        commands,
        status,
        fault: 0,
        pixels,
    }
}

/// Status, pointer, position and trap flag.
fn seen(bench: &Bench) -> (u32, u32, (i16, i16), bool) {
    let look = bench.look(0).unwrap();
    assert_eq!(look.fault, 0);
    (look.status, look.pointer, (look.x, look.y), look.trap)
}

/// Which columns of a line are 1.
fn ones(bench: &Bench, y: u32) -> Vec<usize> {
    let line = bench.line(y);
    (0..line.len()).filter(|x| line[*x] == 1).collect()
}

/// A fresh record's switch is off, and so it is after clear and set-up.
#[test]
fn off_when_fresh() {
    assert!(!PaneRecord::fresh().trap_switch);
    let mut bench = paper();
    assert_eq!(bench.switch(0, 1), Ok(()));
    assert!(bench.record().trap_switch);
    bench.clear(0).unwrap();
    assert_eq!(*bench.record(), PaneRecord::fresh());
    bench.switch(0, 1).unwrap();
    bench.set_up().unwrap();
    assert_eq!(*bench.record(), PaneRecord::fresh());
}

/// With the switch off nothing stops: 01's rule.
#[test]
fn off() {
    let mut bench = paper();
    started(&mut bench, &[&[PLAIN, T, PLAIN], &[T], &[PLAIN]]);
    assert_eq!(bench.run(0, 99), Ok(ran(6, 2, 10)));
    assert_eq!(seen(&bench), (2, 42, (2, 2), true));
}

/// "A CHAR that met a T is finished, counted, and leaves status 4", wherever in
/// the string the T stands; the pointer has gone on.
#[test]
fn the_whole_string_is_drawn() {
    for string in [[T, PLAIN, PLAIN], [PLAIN, T, PLAIN], [PLAIN, PLAIN, T]] {
        let mut bench = paper();
        bench.switch(0, 1).unwrap();
        started(&mut bench, &[&string, &[PLAIN]]);
        assert_eq!(bench.run(0, 99), Ok(ran(2, 4, 6)));
        assert_eq!(seen(&bench), (4, 14, (6, 0), true));
        assert_eq!(ones(&bench, 0), [0, 1, 2, 3, 4, 5]);
        assert_eq!(ones(&bench, 1), []);
    }
    // Two of them stop once. S keeps the position.
    let mut bench = paper();
    bench.switch(0, 1).unwrap();
    started(&mut bench, &[&[T, PLAIN, T, T_AND_S], &[PLAIN]]);
    assert_eq!(bench.run(0, 99), Ok(ran(2, 4, 8)));
    assert_eq!(seen(&bench), (4, 14, (6, 0), true));
    assert_eq!(bench.run(0, 99), Ok(ran(2, 2, 2)));
    assert_eq!(seen(&bench), (2, 28, (2, 1), false));
}

/// A budget that is spent with the CHAR leaves status 4 all the same.
#[test]
fn the_last_command_of_a_budget() {
    let mut bench = paper();
    bench.switch(0, 1).unwrap();
    started(&mut bench, &[&[T], &[PLAIN]]);
    assert_eq!(bench.run(0, 1), Ok(ran(1, 1, 0)));
    assert_eq!(bench.run(0, 1), Ok(ran(1, 4, 2)));
    assert_eq!(bench.run(0, 1), Ok(ran(1, 1, 0)));
}

/// "Run on status 4 clears the flag, makes the status 1, with budget 0 too, and
/// goes on with the next command."
#[test]
fn run_goes_on() {
    let mut bench = paper();
    bench.switch(0, 1).unwrap();
    started(&mut bench, &[&[T], &[PLAIN], &[PLAIN, T], &[T]]);
    assert_eq!(bench.run(0, 99), Ok(ran(2, 4, 2)));
    let mut expected = bench.clone();
    expected.record().status = 1;
    expected.record().trap_flag = false;
    assert_eq!(bench.run(0, 0), Ok(ran(0, 1, 0)));
    assert_eq!(bench, expected);
    assert_eq!(bench.run(0, 0), Ok(ran(0, 1, 0)));
    assert_eq!(bench, expected);
    // The switch is still on.
    assert_eq!(bench.run(0, 99), Ok(ran(4, 4, 6)));
    assert_eq!(seen(&bench), (4, 42, (4, 2), true));
    assert_eq!(bench.run(0, 1), Ok(ran(1, 1, 0)));
    assert_eq!(seen(&bench), (1, 48, (0, 3), false));
    assert_eq!(bench.run(0, 1), Ok(ran(1, 4, 2)));
    assert_eq!(bench.run(0, 1), Ok(ran(0, 2, 0)));
    assert_eq!(seen(&bench), (2, 56, (2, 3), false));
}

/// The next command may fault: status 3, and the flag is cleared.
#[test]
fn run_goes_on_to_a_fault() {
    let mut bench = paper();
    bench.switch(0, 1).unwrap();
    started(&mut bench, &[&[T]]);
    bench.put_words(14, &[0x1700]);
    bench.run(0, 99).unwrap();
    let reply = bench.run(0, 99).unwrap();
    assert_eq!((reply.commands, reply.status, reply.fault), (0, 3, 27));
    assert!(!bench.look(0).unwrap().trap);
}

/// It is the CHAR's own T that stops, not a flag from before.
#[test]
fn a_flag_from_before_stops_nothing() {
    let mut bench = paper();
    started(&mut bench, &[&[T], &[PLAIN], &[], &[T]]);
    assert_eq!(bench.run(0, 2), Ok(ran(2, 1, 2)));
    let mut expected = bench.clone();
    expected.record().trap_switch = true;
    assert_eq!(bench.switch(0, 1), Ok(()));
    assert_eq!(bench, expected);
    assert_eq!(seen(&bench), (1, 14, (2, 0), true));
    // Strings without T and without characters; then one with T.
    assert_eq!(bench.run(0, 2), Ok(ran(2, 1, 2)));
    assert_eq!(bench.run(0, 2), Ok(ran(2, 1, 0)));
    assert_eq!(seen(&bench), (1, 42, (0, 2), true));
    assert_eq!(bench.run(0, 99), Ok(ran(2, 4, 2)));
}

/// "Turning the switch off at status 4 makes the status 1 and keeps the flag."
#[test]
fn turned_off_while_stopped() {
    let mut bench = paper();
    bench.switch(0, 1).unwrap();
    started(&mut bench, &[&[T], &[T, PLAIN]]);
    bench.run(0, 99).unwrap();
    // Turned on once more, nothing changes.
    let before = bench.clone();
    assert_eq!(bench.switch(0, 1), Ok(()));
    assert_eq!(bench, before);
    let mut expected = bench.clone();
    expected.record().trap_switch = false;
    expected.record().status = 1;
    assert_eq!(bench.switch(0, 0), Ok(()));
    assert_eq!(bench, expected);
    assert_eq!(seen(&bench), (1, 14, (2, 0), true));
    assert_eq!(bench.run(0, 99), Ok(ran(2, 2, 4)));
    assert!(bench.look(0).unwrap().trap);
}

/// At any other status the switch changes alone, whatever the flag is.
#[test]
fn turned_at_any_other_status() {
    for status in 0..=3 {
        for flag in [false, true] {
            for (from, value) in [(false, 0), (false, 1), (true, 0), (true, 1)] {
                let mut bench = paper();
                let record = bench.record();
                record.status = status;
                record.fault = if status == 3 { 23 } else { 0 };
                record.trap_flag = flag;
                record.trap_switch = from;
                let mut expected = bench.clone();
                expected.record().trap_switch = value == 1;
                assert_eq!(bench.switch(0, value), Ok(()));
                assert_eq!(bench, expected);
            }
        }
    }
}

/// Start, as at any status: pointer, status, fault and return addresses alone.
#[test]
fn started_while_stopped() {
    let mut bench = paper();
    bench.switch(0, 1).unwrap();
    started(&mut bench, &[&[PLAIN], &[T]]);
    bench.run(0, 99).unwrap();
    assert_eq!(seen(&bench), (4, 28, (2, 1), true));
    let mut expected = bench.clone();
    expected.record().status = 1;
    expected.record().pointer = 0;
    bench.start(0, 0).unwrap();
    assert_eq!(bench, expected);
    // The flag stays over a CHAR without T, and the switch is on.
    assert_eq!(bench.run(0, 3), Ok(ran(3, 1, 2)));
    assert!(bench.look(0).unwrap().trap);
    assert_eq!(bench.run(0, 99), Ok(ran(1, 4, 2)));
}

/// In pick mode and outside the clip, and where no bit is 1.
#[test]
fn nothing_need_be_drawn() {
    let stops = |commands: &[&[u16]], string: &[u16]| {
        let mut bench = paper();
        bench.done(commands);
        bench.switch(0, 1).unwrap();
        started(&mut bench, &[string, &[PLAIN]]);
        let before = (bench.screen.clone(), bench.stores.clone());
        assert_eq!(bench.run(0, 99), Ok(ran(2, 4, 0)));
        assert_eq!((bench.screen.clone(), bench.stores.clone()), before);
        assert!(bench.look(0).unwrap().trap);
        bench.look(0).unwrap().pick
    };
    let (below, none) = ([0x4600, 0, 3, 15, 3], [0x4600, 1, 0, 0, 3]);
    assert!(!stops(&[&below], &[T]));
    assert!(!stops(&[&none], &[PLAIN, T]));
    assert!(!stops(&[], &[T_OF_NOTHING]));
    let pick = [0x4400];
    assert!(stops(&[&pick], &[T]));
    assert!(stops(&[&pick], &[PLAIN, T_OF_NOTHING]));
    assert!(!stops(&[&pick], &[T_OF_NOTHING]));
    assert!(!stops(&[&below, &pick], &[T, PLAIN]));
}

/// In byte mode, and in a bitmap of the store.
#[test]
fn bytes_and_store() {
    let mut bench = paper();
    bench.put_words(0x240, &[0x22, 0x24]);
    bench.put_words(0x284, &[0x0001, 3, 0x8001, 3]);
    bench.put(0, 0x301, &[0, 1, 0]).unwrap();
    bench.switch(0, 1).unwrap();
    let bitmap = [0x1A00, 0x380, 0, 15, 0, 1];
    let font = [0x0B00, 0x240, 0];
    let reply = bench.go(&[&bitmap, &font, &at(0, 0), &text(0x301, 3), &text(0x301, 1)]);
    assert_eq!(reply, ran(4, 4, 6));
    assert_eq!(
        (bench.peek(0, 0x381), bench.peek(0, 0x380)),
        (Ok(0xFC), Ok(0))
    );
    assert_eq!(bench.run(0, 99), Ok(ran(1, 2, 2)));
    // A string that faults, by its third character, meets no T.
    bench.put(0, 0x303, &[255]).unwrap();
    let reply = bench.go(&[&at(0, 0), &text(0x301, 3), &text(0x302, 1)]);
    assert_eq!((reply.status, reply.fault, reply.commands), (3, 25, 1));
    assert!(!bench.look(0).unwrap().trap);
}

/// "The judge's 'clean' is meant with the switch off": it walks on past a T, and
/// at status 4 as at any other it changes nothing.
#[test]
fn judged_while_stopped() {
    let mut bench = Bench::whole(16, 4, 1);
    bench.put_words(u32::from(FONT), &[0x8001, 3]);
    bench.put_words(0x300, &[0, 0]);
    let font = [0x0A00, FONT, 0];
    let words = [&pane_bitmap(16, 4, 1)[..], &font, &text(0x300, 2)].concat();
    bench.put_words(0, &words);
    bench.put_words(2 * words.len() as u32, &[0x0300, 0x0001]);
    bench.switch(0, 1).unwrap();
    bench.start(0, 0).unwrap();
    assert_eq!(bench.run(0, 99), Ok(ran(3, 4, 4)));
    let before = bench.clone();
    assert_eq!(bench.judge(0, 0), Ok(Verdict::Clean { commands: 4 }));
    assert_eq!(bench, before);
    assert_eq!(bench.run(0, 99), Ok(ran(1, 2, 0)));
}

/// Each pane has its own switch, and status 4 of one is nothing to another.
#[test]
fn panes_apart() {
    let rows = [row(0, 0, 8, 4, 0, 512), row(8, 0, 8, 4, 512, 512)];
    let mut bench = Bench::open(16, 4, 1, &rows);
    let words = [
        &pane_bitmap(8, 4, 1)[..],
        &[0x0A00, 0x80, 0],
        &text(0x90, 1),
    ]
    .concat();
    for pane in 0..2 {
        for (address, words) in [(0, &words[..]), (0x80, &[0x8001, 3, 0, 0]), (0x90, &[0])] {
            let bytes: Vec<u8> = words.iter().flat_map(|word| word.to_le_bytes()).collect();
            bench.put(pane, address, &bytes).unwrap();
        }
        bench.put(pane, 2 * words.len() as u32, &[1, 0]).unwrap();
        bench.start(pane, 0).unwrap();
    }
    bench.switch(1, 1).unwrap();
    assert_eq!(bench.run(0, 99), Ok(ran(3, 2, 2)));
    assert_eq!(bench.run(1, 99), Ok(ran(3, 4, 2)));
    let other = bench.console.panes[1].clone();
    bench.switch(0, 0).unwrap();
    bench.start(0, 0).unwrap();
    assert_eq!(bench.run(0, 99), Ok(ran(3, 2, 2)));
    assert_eq!(bench.console.panes[1], other);
    assert_eq!(bench.run(1, 99), Ok(ran(0, 2, 0)));
}
