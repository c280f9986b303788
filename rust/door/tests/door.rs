//! The door's own tests: what goes in and comes out is what the paper's worked numbers say.
//!
//! Without the archive there is nothing to call, and all of them are ignored.

use pilaqsevi::{
    Answer, Desk, HIGHEST_THRESHOLD, Host, LONGEST_ENTRY, LONGEST_MESSAGE, LONGEST_RING,
    MOST_FIRMS, MOST_RECORDS, MOST_STOCKS, Marks, SHORTEST_RING, SYMBOL_SIZE, Settings, Status,
    convert, echo, entry, entry_length, fresh, message_length, old_table_size, read, release,
    status, step, stocks_size, table_size,
};

const SETTINGS: Settings = Settings {
    threshold: HIGHEST_THRESHOLD,
    firms: &[*b"ABCD"],
};

const STOCKS: &[u8; stocks_size(1)] = b"IBM     T";
const START: &[u8] = b"s\0\0\0\0\0\0\0\x01S";
const ENTER: &[u8] = b"O\0\0\0\0\0\0\0\x02TOKEN00000001 B\0\0\x01\xf4IBM     \0\x01\x86\xa0\0\0\x03\xe7ABCDYPN\0\0\0\0N";
const CANCEL: &[u8] = b"X\0\0\0\0\0\0\0\x03TOKEN00000001 \0\0\0\0";
const HALT: &[u8] = b"h\0\0\0\0\0\0\0\x02IBM     H";
/// Of the purge port: all orders of ABCD are to go, its new ones are kept out, and let in again.
const MASS_CANCEL: &[u8] = b"M\0\0\0\x01ABCD              \0\0";
const DISABLE: &[u8] = b"D\0\0\0\x02ABCD      ";
const ENABLE: &[u8] = b"E\0\0\0\x03ABCD      ";

/// Takes all held bytes out.
fn empty(desk: &mut Desk) -> Vec<u8> {
    let mut out = Vec::new();
    while desk.held() > 0 {
        let run = desk.read();
        out.extend(run);
        let k = run.len();
        assert_eq!(desk.release(k), Answer::Done);
    }
    out
}

#[test]
#[cfg_attr(not(archive), ignore = "no archive of the proved functions is linked")]
fn the_worked_tape_is_answered_as_worked() {
    let mut desk = Desk::new(SETTINGS, 10, 128, STOCKS).unwrap();
    let mut sent = Vec::new();
    let mut bytes = 0;
    for (entry, answer) in [
        (START, Answer::Done),
        (ENTER, Answer::Done),
        (CANCEL, Answer::Done),
        (CANCEL, Answer::Ignored),
    ] {
        assert_eq!(desk.offer(entry), answer);
        let message = empty(&mut desk);
        bytes += message.len();
        sent.extend(message.first());
    }
    assert_eq!((sent.as_slice(), bytes), (b"SAC".as_slice(), 104));
}

#[test]
#[cfg_attr(not(archive), ignore = "no archive of the proved functions is linked")]
fn a_blocked_entry_changes_nothing_and_can_be_offered_again() {
    let mut table = [0xaa; table_size(10)];
    let (mut ring, mut stocks) = ([0; 128], *STOCKS);
    let mut host = Host::new(&mut table, &mut ring).with_stocks(&mut stocks);
    assert_eq!(host.fresh(1_000_000, &[*b"ABCD"]), Answer::Done);
    assert_eq!(host.step(START), Answer::Done);
    let held = 128 - 65;
    let mut host = host.with_marks(Marks { at: 100, held });
    let before = (host.table().to_vec(), host.ring().to_vec());
    assert_eq!(host.step(ENTER), Answer::Blocked);
    assert_eq!(host.marks(), Marks { at: 100, held });
    assert_eq!((host.table().to_vec(), host.ring().to_vec()), before);
    assert_eq!(host.release(1), Answer::Done);
    assert_eq!(host.step(ENTER), Answer::Done);
    assert_eq!(host.marks(), Marks { at: 101, held: 128 });
    assert_eq!(stocks, *STOCKS);
}

/// A host forgets nothing that is held, and halts nothing and frees nothing, when its table is made
/// fresh.
#[test]
#[cfg_attr(not(archive), ignore = "no archive of the proved functions is linked")]
fn a_fresh_host_keeps_its_ring_and_its_list() {
    let (mut table, mut ring) = ([0; table_size(1)], [0; SHORTEST_RING]);
    let mut stocks = *STOCKS;
    let mut host = Host::new(&mut table, &mut ring).with_stocks(&mut stocks);
    assert_eq!(host.step(START), Answer::NotSound);
    assert_eq!(host.fresh(1_000_000, &[*b"ABCD"]), Answer::Done);
    assert_eq!(host.step(START), Answer::Done);
    assert_eq!(host.step(HALT), Answer::Done);
    assert_eq!((host.table()[0], host.held()), (1, 10));
    assert_eq!(host.fresh(1_000_000, &[*b"ABCD"]), Answer::Done);
    assert_eq!((host.table()[0], host.held()), (0, 10));
    assert_eq!(host.read(), [b"S", &START[1..]].concat());
    assert_eq!(host.read().as_ptr(), host.ring().as_ptr());
    assert_eq!(host.stocks(), b"IBM     H");
    assert_eq!(host.release(11), Answer::NotHeld);
    assert_eq!(host.release(10), Answer::Done);
    assert_eq!((host.read(), host.marks().at), (b"".as_slice(), 10));
}

#[test]
#[cfg_attr(not(archive), ignore = "no archive of the proved functions is linked")]
fn a_halted_stock_is_rejected_until_it_trades_again() {
    let mut desk = Desk::new(SETTINGS, 3, 128, STOCKS).unwrap();
    let mut enter = ENTER.to_vec();
    let mut sent = |entry: &[u8]| {
        assert_eq!(desk.offer(entry), Answer::Done);
        (empty(&mut desk), desk.stocks()[SYMBOL_SIZE])
    };
    assert_eq!(sent(START).0[0], b'S');
    assert_eq!(sent(HALT), (vec![], b'H'));
    let (message, _) = sent(&enter);
    assert_eq!((message[0], message.last()), (b'J', Some(&b'H')));
    let trade = [&HALT[..17], b"T"].concat();
    assert_eq!(sent(&trade), (vec![], b'T'));
    enter[21] = b'2';
    assert_eq!(sent(&enter).0[0], b'A');
    // A stock that isn't listed.
    (enter[21], enter[28]) = (b'3', b'J');
    let (message, _) = sent(&enter);
    assert_eq!((message[0], message.last()), (b'J', Some(&b'S')));
}

#[test]
#[cfg_attr(not(archive), ignore = "no archive of the proved functions is linked")]
fn a_halt_that_is_refused_says_why() {
    let mut desk = Desk::new(SETTINGS, 1, 128, STOCKS).unwrap();
    let mut halt = HALT.to_vec();
    halt[17] = b't';
    assert_eq!(desk.offer(&halt), Answer::BadField { place: 17 });
    halt[1] = 0xff;
    assert_eq!(desk.offer(&halt), Answer::BadField { place: 1 });
    (halt[1], halt[9], halt[17]) = (0, b'J', b'H');
    assert_eq!(desk.offer(&halt), Answer::NotLive);
    assert_eq!(desk.offer(&halt[..17]), Answer::Malformed);
    assert_eq!(desk.stocks(), STOCKS);
}

#[test]
#[cfg_attr(not(archive), ignore = "no archive of the proved functions is linked")]
fn a_desk_with_the_shortest_ring_blocks_and_goes_on() {
    let mut desk = Desk::new(SETTINGS, 1, SHORTEST_RING, STOCKS).unwrap();
    assert_eq!(desk.offer(START), Answer::Done);
    assert_eq!(desk.offer(ENTER), Answer::Done);
    let before = desk.clone();
    assert_eq!(desk.offer(CANCEL), Answer::Blocked);
    assert_eq!(desk, before);
    assert_eq!(desk.release(77), Answer::NotHeld);
    assert_eq!(desk, before);
    assert_eq!(desk.release(24), Answer::Done);
    assert_eq!(desk.offer(CANCEL), Answer::Done);
    assert_eq!(desk.marks(), Marks { at: 24, held: 80 });
    assert_eq!(desk.read(), &desk.ring()[24..]);
    assert_eq!(empty(&mut desk).last(), Some(&b'U'));
    assert_eq!(desk.table()[64], b'D');
}

#[test]
#[cfg_attr(not(archive), ignore = "no archive of the proved functions is linked")]
fn a_desk_says_what_is_wrong_with_it() {
    // A wrong list too, which is told last.
    let wrong = |settings, records, ring| Desk::new(settings, records, ring, b"T").err();
    let no_firm = Settings {
        firms: &[],
        ..SETTINGS
    };
    let too_many = Settings {
        firms: &[*b"A   "; MOST_FIRMS + 1],
        ..SETTINGS
    };
    let zero = Settings {
        threshold: 0,
        ..SETTINGS
    };
    assert_eq!(wrong(SETTINGS, 0, 80), Some(Answer::NotSound));
    assert_eq!(wrong(zero, MOST_RECORDS + 1, 79), Some(Answer::NotSound));
    assert_eq!(wrong(SETTINGS, usize::MAX, 80), Some(Answer::NotSound));
    assert_eq!(wrong(no_firm, 1, 79), Some(Answer::BadSettings));
    assert_eq!(wrong(too_many, 1, 80), Some(Answer::BadSettings));
    assert_eq!(wrong(zero, 1, 80), Some(Answer::BadSettings));
    assert_eq!(wrong(SETTINGS, 1, 79), Some(Answer::WrongRing));
    let above = LONGEST_RING + 1;
    assert_eq!(wrong(SETTINGS, 1, above), Some(Answer::WrongRing));
    assert_eq!(wrong(SETTINGS, 1, usize::MAX), Some(Answer::WrongRing));
    let most = (MOST_RECORDS, LONGEST_RING);
    assert_eq!(wrong(SETTINGS, most.0, most.1), Some(Answer::WrongStocks));
    let right = Desk::new(SETTINGS, most.0, most.1, &[]);
    assert!(right.is_ok_and(|desk| desk.held() == 0));
}

/// A list of so many stocks.
fn stocks(places: usize) -> Vec<u8> {
    let symbol = |place: usize| (place as u64).to_be_bytes();
    (0..places)
        .flat_map(|place| [&symbol(place)[..], b"T"].concat())
        .collect()
}

#[test]
#[cfg_attr(not(archive), ignore = "no archive of the proved functions is linked")]
fn a_desk_takes_every_good_list_and_no_other() {
    let made = |stocks: &[u8]| Desk::new(SETTINGS, 1, SHORTEST_RING, stocks);
    for places in [0, 1, 2, MOST_STOCKS] {
        let list = stocks(places);
        assert_eq!(list.len(), stocks_size(places));
        assert!(made(&list).is_ok_and(|desk| desk.stocks() == list));
    }
    for wrong in [
        stocks(MOST_STOCKS + 1).as_slice(),
        &stocks(3)[1..],
        &stocks(3)[..26],
        b"IBM     t",
        b"IBM     TIBM     T",
        b"IBM     TABC     T",
        b"\x80       T\x7f       T",
    ] {
        assert_eq!(made(wrong).err(), Some(Answer::WrongStocks));
    }
}

#[test]
#[cfg_attr(not(archive), ignore = "no archive of the proved functions is linked")]
fn wrong_marks_lists_and_tables_are_refused() {
    let (mut table, mut ring) = ([0; table_size(10)], [0; 128]);
    assert_eq!(fresh(&mut table, 1, &[*b"A   "; 8]), Answer::Done);
    let mut start = |table: &mut [u8], marks, list: &[u8]| {
        let (mut marks, mut list) = (marks, list.to_vec());
        step(table, &mut ring, &mut marks, &mut list, START)
    };
    let mut marks = Marks { at: 128, held: 1 };
    let right = Marks::default();
    assert_eq!(start(&mut table, right, b"T"), Answer::WrongStocks);
    assert_eq!(start(&mut table, marks, b"T"), Answer::WrongRing);
    table[0] = 3;
    assert_eq!(start(&mut table, marks, b"T"), Answer::NotSound);
    assert_eq!(read(&ring, marks), b"");
    assert_eq!(release(128, &mut marks, 0), Answer::WrongRing);
    marks = Marks { at: 127, held: 2 };
    assert_eq!(read(&ring, marks).len(), 1);
    assert_eq!(release(128, &mut marks, 3), Answer::NotHeld);
    assert_eq!(release(128, &mut marks, 2), Answer::Done);
    assert_eq!(marks, Marks { at: 1, held: 0 });
    assert_eq!(fresh(&mut [], 1, &[*b"A   "]), Answer::NotSound);
    assert_eq!(fresh(&mut table, 1, &[]), Answer::BadSettings);
    assert_eq!(fresh(&mut table, 1, &[*b"A   "; 9]), Answer::BadSettings);
}

#[test]
#[cfg_attr(not(archive), ignore = "no archive of the proved functions is linked")]
fn an_echo_writes_the_message_and_no_more() {
    // The same nineteen bytes without a stamp are an inbound Cancel.
    let message = [b"X".as_slice(), &CANCEL[9..]].concat();
    let mut out = [0x55; 24];
    assert_eq!(echo(true, &message, &mut out), Answer::Done);
    assert_eq!(
        (&out[..19], &out[19..]),
        (message.as_slice(), [0x55; 5].as_slice())
    );
    let mut short = [0x55; 18];
    assert_eq!(echo(true, &message, &mut short), Answer::NoRoom);
    assert_eq!(short, [0x55; 18]);
    assert_eq!(echo(false, &message, &mut out), Answer::Malformed);
    assert_eq!(echo(true, b"", &mut []), Answer::Malformed);
}

#[test]
#[cfg_attr(not(archive), ignore = "no archive of the proved functions is linked")]
fn a_bad_byte_is_told_from_the_kind_and_from_the_type() {
    let mut desk = Desk::new(SETTINGS, 1, SHORTEST_RING, STOCKS).unwrap();
    let before = desk.clone();
    let mut entry = ENTER.to_vec();
    // A bad sweep, then a bad side, a token bad at its last character and at its fifth, and a stamp.
    for place in [50, 23, 22, 13, 1] {
        entry[place] = 0xff;
        assert_eq!(desk.offer(&entry), Answer::BadField { place });
        assert_eq!(desk, before);
    }
    assert_eq!(desk.offer(&entry[..55]), Answer::Malformed);

    let mut message = [b"O".as_slice(), &ENTER[9..]].concat();
    for place in [42, 15, 14, 5] {
        message[place] = b'-';
        let answer = echo(true, &message, &mut []);
        assert_eq!(answer.to_string(), format!("3: bad byte at {place}"));
    }
}

/// The entry that is made from a message, as the purge port's or as a client's; what stands behind it
/// in the longest buffer has stayed.
fn made(purge: bool, stamp: u64, message: &[u8]) -> Result<Vec<u8>, Answer> {
    let mut buffer = [0x55; LONGEST_ENTRY];
    let answer = entry(purge, stamp, message, &mut buffer);
    let length = match answer {
        Answer::Done => entry_length(buffer[0]).unwrap(),
        _ => 0,
    };
    let (front, behind) = buffer.split_at(length);
    assert!(behind.iter().all(|&byte| byte == 0x55));
    if length > 0 {
        Ok(front.to_vec())
    } else {
        Err(answer)
    }
}

/// The message that an entry of a client was made from.
fn message_of(entry: &[u8]) -> Vec<u8> {
    [&entry[..1], &entry[9..]].concat()
}

#[test]
#[cfg_attr(not(archive), ignore = "no archive of the proved functions is linked")]
fn an_entry_is_a_message_with_a_stamp() {
    // Every entry of a client is what its message becomes with its stamp.
    let replace = b"U\0\0\0\0\0\0\0\x04TOKEN00000001 TOKEN00000002 \0\0\0\x64\0\x01\x86\xa0\0\0\x03\xe7YN\0\0\0\0";
    let modify = b"M\0\0\0\0\0\0\0\x05TOKEN00000002 S\0\0\0\x32";
    for whole in [ENTER, replace, CANCEL, modify] {
        let message = message_of(whole);
        let stamp = u64::from(whole[8]);
        assert_eq!(made(false, stamp, &message).as_deref(), Ok(whole));
        assert_eq!(made(true, stamp, &message), Err(Answer::Malformed));
    }
    // Of a request the firm is kept and, of a Mass Cancel, the symbol.
    let mut in_ibm = MASS_CANCEL.to_vec();
    in_ibm[15..18].copy_from_slice(b"IBM");
    let stamp = *b"\x01\x02\x03\x04\x05\x06\x07\x08";
    for (request, kind, body) in [
        (MASS_CANCEL, b"w", b"ABCD        ".as_slice()),
        (&in_ibm, b"w", b"ABCDIBM     "),
        (DISABLE, b"d", b"ABCD"),
        (ENABLE, b"n", b"ABCD"),
    ] {
        let whole = [kind, &stamp[..], body].concat();
        let stamp = u64::from_be_bytes(stamp);
        assert_eq!(made(true, stamp, request), Ok(whole));
        assert_eq!(made(false, stamp, request), Err(Answer::Malformed));
    }
    // Reference, firm and stamp may be anything: the last two are the step's to judge.
    let any = made(true, u64::MAX, b"D\xff\xff\xff\xff\0\0\0\0      ").unwrap();
    assert_eq!(any, b"d\xff\xff\xff\xff\xff\xff\xff\xff\0\0\0\0");
}

#[test]
#[cfg_attr(not(archive), ignore = "no archive of the proved functions is linked")]
fn an_entry_that_cannot_be_made_says_why() {
    let enter = message_of(ENTER);
    for (purge, message) in [
        (true, MASS_CANCEL),
        (true, DISABLE),
        (true, ENABLE),
        (false, &enter),
    ] {
        let (cut, longer) = (&message[..message.len() - 1], [message, b" "].concat());
        assert_eq!(made(purge, 1, cut), Err(Answer::Malformed));
        assert_eq!(made(purge, 1, &longer), Err(Answer::Malformed));
        let length = made(purge, 1, message).unwrap().len();
        let mut short = vec![0x55; length - 1];
        assert_eq!(entry(purge, 1, message, &mut short), Answer::NoRoom);
        assert!(short.iter().all(|&byte| byte == 0x55));
    }
    assert_eq!(entry(true, 1, b"", &mut []), Answer::Malformed);
    assert_eq!(entry(true, 1, ENABLE, &mut []), Answer::NoRoom);
    // A place is a field's first byte, whichever of its bytes is bad, and told before the room.
    let bad = |purge, message: &[u8], at: usize| {
        let mut message = message.to_vec();
        message[at] = b'1';
        entry(purge, 1, &message, &mut [])
    };
    for request in [MASS_CANCEL, DISABLE, ENABLE] {
        for at in 9..15 {
            assert_eq!(bad(true, request, at), Answer::BadField { place: 9 });
        }
    }
    for at in 23..25 {
        assert_eq!(bad(true, MASS_CANCEL, at), Answer::BadField { place: 23 });
    }
    let both = b"M\0\0\0\x01ABCD     1        \x01\0";
    assert_eq!(made(true, 1, both), Err(Answer::BadField { place: 9 }));
    // A side is a letter, and any character of a token may be a figure.
    assert_eq!(bad(false, &enter, 15), Answer::BadField { place: 15 });
    assert_eq!(bad(false, &enter, 14), Answer::NoRoom);
}

#[test]
#[cfg_attr(not(archive), ignore = "no archive of the proved functions is linked")]
fn a_purge_takes_one_order_each_time_until_none_is_left() {
    let settings = Settings {
        firms: &[*b"ABCD", *b"WXYZ"],
        ..SETTINGS
    };
    let mut desk = Desk::new(settings, 3, 128, STOCKS).unwrap();
    let purge = made(true, 2, MASS_CANCEL).unwrap();
    // It asks for no open day, and what is ignored moves no stamp.
    assert_eq!(desk.offer(&purge), Answer::Ignored);
    assert_eq!(desk.offer(START), Answer::Done);
    // Of the three orders the second is another firm's.
    for (last, firm) in [(b'1', b"ABCD"), (b'2', b"WXYZ"), (b'3', b"    ")] {
        let mut enter = ENTER.to_vec();
        enter[21] = last;
        enter[44..48].copy_from_slice(firm);
        empty(&mut desk);
        assert_eq!(desk.offer(&enter), Answer::Done);
    }
    // The last Accepted is held and leaves room for two Canceleds.
    assert_eq!(desk.held(), 66);
    let mut in_abc = purge.clone();
    in_abc[13..16].copy_from_slice(b"ABC");
    assert_eq!(desk.offer(&in_abc), Answer::Ignored);
    assert_eq!(desk.offer(&purge), Answer::Done);
    assert_eq!(desk.offer(&purge), Answer::Done);
    assert_eq!(desk.offer(&purge), Answer::Ignored);
    let sent = empty(&mut desk)[66..].to_vec();
    let canceled: Vec<(u8, u8, u8)> = sent.chunks(28).map(|c| (c[0], c[21], c[27])).collect();
    assert_eq!(canceled, [(b'C', b'1', b'U'), (b'C', b'3', b'U')]);
}

#[test]
#[cfg_attr(not(archive), ignore = "no archive of the proved functions is linked")]
fn a_blocked_firm_is_rejected_until_it_is_let_in_again() {
    let settings = Settings {
        firms: &[*b"WXYZ", *b"ABCD"],
        ..SETTINGS
    };
    let mut desk = Desk::new(settings, 4, 128, STOCKS).unwrap();
    let disable = made(true, 2, DISABLE).unwrap();
    let enable = made(true, 2, ENABLE).unwrap();
    assert_eq!(desk.offer(START), Answer::Done);
    let mut sent = |entry: &[u8]| {
        empty(&mut desk);
        assert_eq!(desk.offer(entry), Answer::Done);
        (empty(&mut desk), desk.table()[3])
    };
    let mut enter = ENTER.to_vec();
    assert_eq!(sent(&disable), (vec![], 0b10));
    let (message, _) = sent(&enter);
    assert_eq!((message[0], message.last()), (b'J', Some(&b'a')));
    // The other firm, which is the default, isn't blocked.
    enter[21] = b'2';
    enter[44..48].copy_from_slice(b"    ");
    assert_eq!(sent(&enter).0[0], b'A');
    assert_eq!(sent(&enable), (vec![], 0));
    enter[21] = b'3';
    enter[44..48].copy_from_slice(b"ABCD");
    assert_eq!(sent(&enter).0[0], b'A');
}

#[test]
#[cfg_attr(not(archive), ignore = "no archive of the proved functions is linked")]
fn a_firm_that_is_not_listed_is_neither_purged_nor_blocked() {
    let mut desk = Desk::new(SETTINGS, 1, 128, STOCKS).unwrap();
    let before = desk.clone();
    for request in [MASS_CANCEL, DISABLE, ENABLE] {
        // A blank firm isn't the default's here.
        for firm in [b"WXYZ", b"    "] {
            let mut request = request.to_vec();
            request[5..9].copy_from_slice(firm);
            let entry = made(true, 2, &request).unwrap();
            assert_eq!(desk.offer(&entry), Answer::UnlistedFirm);
            assert_eq!(desk, before);
        }
    }
}

/// The same order with another number in its token.
fn enter(number: usize) -> Vec<u8> {
    let mut enter = ENTER.to_vec();
    enter[20..22].copy_from_slice(format!("{number:02}").as_bytes());
    enter
}

/// A Cancel of it to this size, at the same time.
fn cancel(number: usize, size: u8) -> Vec<u8> {
    let mut cancel = CANCEL.to_vec();
    cancel[20..22].copy_from_slice(format!("{number:02}").as_bytes());
    (cancel[8], cancel[26]) = (ENTER[8], size);
    cancel
}

/// A desk of so many records that has taken these entries.
fn played(records: usize, entries: &[Vec<u8>]) -> Desk {
    let mut desk = Desk::new(SETTINGS, records, 128, STOCKS).unwrap();
    for entry in entries {
        assert_eq!(desk.offer(entry), Answer::Done);
        empty(&mut desk);
    }
    desk
}

/// The table in the form that it had before: without bits, and with zeros as its form and its sum.
fn old_form(table: &[u8], records: usize) -> Vec<u8> {
    let mut old = table[..old_table_size(records)].to_vec();
    old[2] = 0;
    old[60..64].fill(0);
    old
}

#[test]
#[cfg_attr(not(archive), ignore = "no archive of the proved functions is linked")]
fn a_status_goes_with_every_entry() {
    let mut desk = Desk::new(SETTINGS, 10, 128, STOCKS).unwrap();
    let mut left = |entry: &[u8]| {
        empty(&mut desk);
        assert_eq!(desk.offer(entry), Answer::Done);
        let Status { live, open } = desk.status();
        let table = desk.table();
        assert_eq!(table[2], 1);
        assert_eq!(
            u32::from_be_bytes(table[60..64].try_into().unwrap()),
            open as u32
        );
        (live, open, table[old_table_size(10)..].to_vec())
    };
    assert_eq!(left(START), (0, 0, vec![0, 0]));
    for number in 1..=9 {
        let (live, open, _) = left(&enter(number));
        assert_eq!((live, open), (number, 500 * number));
    }
    assert_eq!(left(&cancel(9, 100)), (9, 4_100, vec![0xff, 0b01]));
    assert_eq!(left(&cancel(2, 0)), (8, 3_600, vec![0xfd, 0b01]));
    // A token that a Rejected uses up takes a record, and is no order.
    assert_eq!(left(HALT), (8, 3_600, vec![0xfd, 0b01]));
    assert_eq!(left(&enter(10)), (8, 3_600, vec![0xfd, 0b01]));
    // The first order goes, and the next one with the same entry again: the third.
    let purge = made(true, 2, MASS_CANCEL).unwrap();
    assert_eq!(left(&purge), (7, 3_100, vec![0xfc, 0b01]));
    assert_eq!(left(&purge), (6, 2_600, vec![0xf8, 0b01]));
}

#[test]
#[cfg_attr(not(archive), ignore = "no archive of the proved functions is linked")]
fn a_table_that_miscounts_is_not_sound_and_a_status_believes_it() {
    let desk = played(10, &[START.to_vec(), enter(1), enter(2)]);
    let bits = old_table_size(10);
    // A dead order's bit, an unused record's and a spare one; then the last byte of the sum.
    let two = Status {
        live: 2,
        open: 1_000,
    };
    for (place, bit, live) in [
        (bits, 0b01, 1),
        (bits, 0b100, 3),
        (bits + 1, 0b10, 3),
        (bits + 1, 0b100, 3),
        (bits + 1, 0x80, 3),
        (63, 0x08, 2),
    ] {
        let (mut table, mut ring) = (desk.table().to_vec(), [0; SHORTEST_RING]);
        assert_eq!(status(&table), Ok(two));
        table[place] ^= bit;
        let mut host = Host::new(&mut table, &mut ring);
        // 1,000 ends with the byte 0xe8, so that this bit is taken from the sum.
        let open = if place == 63 { 992 } else { 1_000 };
        assert_eq!(host.status(), Ok(Status { live, open }));
        assert_eq!(host.step(&cancel(1, 0)), Answer::NotSound);
    }
}

#[test]
#[cfg_attr(not(archive), ignore = "no archive of the proved functions is linked")]
fn a_status_is_refused_where_length_or_form_is_no_tables() {
    let mut bytes = vec![0xff; table_size(MOST_RECORDS + 1)];
    bytes[2] = 1;
    let mut records = 1;
    for len in 0..=bytes.len() {
        // A table is the next one that is longer than the last.
        let right = records <= MOST_RECORDS && len == table_size(records);
        let (live, open) = (8 * records.div_ceil(8), u32::MAX as usize);
        let told = if right {
            Ok(Status { live, open })
        } else {
            Err(Answer::NotSound)
        };
        assert_eq!(status(&bytes[..len]), told);
        records += usize::from(right);
    }
    assert_eq!(records, MOST_RECORDS + 1);
    for form in (0..=255).filter(|&form| form != 1) {
        bytes[2] = form;
        assert_eq!(status(&bytes[..table_size(3)]), Err(Answer::NotSound));
    }
}

#[test]
#[cfg_attr(not(archive), ignore = "no archive of the proved functions is linked")]
fn an_old_table_is_rebuilt_and_the_day_goes_on() {
    let cut = cancel(1, 100);
    let entries = [
        START.to_vec(),
        enter(1),
        enter(2),
        enter(3),
        cut,
        cancel(2, 0),
    ];
    for records in [3, 8, 9, MOST_RECORDS] {
        let mut desk = played(records, &entries);
        let mut old = old_form(desk.table(), records);
        // What stands in an unused record is nobody's business, and carried along.
        let unused = old_table_size(3)..;
        old[unused].fill(b'L');
        let mut table = vec![0x55; table_size(records)];
        let (mut ring, mut stocks) = ([0; SHORTEST_RING], *STOCKS);
        let kept = old.clone();
        assert_eq!(convert(&old, &mut table), Answer::Done);
        assert!(old == kept);
        old[2] = 1;
        old[60..64].copy_from_slice(&600_u32.to_be_bytes());
        assert!(table[..old.len()] == old);
        let bits = &table[old.len()..];
        assert!(bits[0] == 0b101 && bits[1..].iter().all(|&byte| byte == 0));
        // Both tables answer the rest of the day alike; the old one is no table any more.
        let mut host = Host::new(&mut table, &mut ring).with_stocks(&mut stocks);
        for entry in [cancel(2, 0), cancel(3, 0), cancel(1, 0)] {
            assert_eq!(host.step(&entry), desk.offer(&entry));
            assert_eq!(host.read(), desk.read());
            assert_eq!(host.status(), Ok(desk.status()));
            assert_eq!(host.release(host.held()), Answer::Done);
            empty(&mut desk);
        }
        let mut kept = kept;
        let mut host = Host::new(&mut kept, &mut ring).with_stocks(&mut stocks);
        assert_eq!(host.step(START), Answer::NotSound);
    }
}

#[test]
#[cfg_attr(not(archive), ignore = "no archive of the proved functions is linked")]
fn a_conversion_that_is_refused_says_why_and_changes_nothing() {
    let desk = played(3, &[START.to_vec(), enter(1)]);
    let old = old_form(desk.table(), 3);
    let refused = |old: &[u8], len: usize| {
        let mut table = vec![0x55; len];
        let answer = convert(old, &mut table);
        assert!(table.iter().all(|&byte| byte == 0x55));
        answer
    };
    let right = table_size(3);
    for len in (0..2 * right).filter(|&len| len != right) {
        assert_eq!(refused(&old, len), Answer::NoRoom);
    }
    // What isn't sound is told first: a form, a sum, a day, a state, a length.
    let damaged = |place: usize, byte: u8| {
        let mut old = old.clone();
        old[place] = byte;
        old
    };
    for wrong in [
        damaged(2, 1),
        damaged(2, 2),
        damaged(60, 1),
        damaged(63, 1),
        damaged(0, 3),
        damaged(64, b'D'),
        old[..old.len() - 1].to_vec(),
        old[..64].to_vec(),
        desk.table().to_vec(),
        vec![],
    ] {
        for len in [0, right - 1, right] {
            assert_eq!(refused(&wrong, len), Answer::NotSound);
        }
    }
}

#[test]
#[cfg_attr(not(archive), ignore = "no archive of the proved functions is linked")]
fn lengths_are_the_papers() {
    assert_eq!(
        (table_size(1), table_size(8), table_size(9)),
        (145, 705, 786)
    );
    assert_eq!(table_size(MOST_RECORDS), 64_164);
    let entries = (0..=255).filter_map(|kind| Some((kind, entry_length(kind)?)));
    let entries: Vec<(u8, usize)> = entries.collect();
    let kinds: Vec<u8> = entries.iter().map(|(kind, _)| *kind).collect();
    assert_eq!(kinds, b"MOUXcdefhlnpqsw");
    assert_eq!(entry_length(b'h'), Some(HALT.len()));
    assert_eq!(b"wdn".map(entry_length), [Some(21), Some(13), Some(13)]);
    assert_eq!((entry_length(b'q'), entry_length(b'u')), (Some(36), None));
    assert_eq!(
        entries.iter().map(|(_, length)| *length).max(),
        Some(LONGEST_ENTRY)
    );
    let sent = (0..=255).filter_map(|letter| message_length(false, letter));
    let sent: Vec<usize> = sent.collect();
    assert_eq!(
        (sent.len(), sent.iter().max()),
        (12, Some(&LONGEST_MESSAGE))
    );
    let come = (0..=255).filter_map(|letter| message_length(true, letter));
    assert_eq!(come.collect::<Vec<_>>(), [20, 48, 47, 19]);
}
