// The raw functions: what is lent stays as it is under a refusal, and past what is written.
mod common;
use common::to_save::{bytes, only_free, with_files};
use common::{at_13, disk, disk_13, five_three};
use dos33::raw::*;

const OLD: u8 = 0xA7;
const OLD_LENGTH: u64 = 0xDEAD_BEEF;

type Call<'a> = &'a dyn Fn(*mut u8, usize, *mut u64) -> u8;
type Numbers<'a> = &'a dyn Fn(*mut u64, usize) -> u8;

// A refusal, with room enough: nothing changes.
fn refuses(due: u8, call: Call) {
    for room in [0, 1, 300_000] {
        let mut out = vec![OLD; room];
        let mut length = OLD_LENGTH;
        assert_eq!(call(out.as_mut_ptr(), room, &mut length), due);
        assert_eq!(length, OLD_LENGTH);
        assert!(out.iter().all(|&b| b == OLD));
    }
}

// Accepted with `need` bytes of room and with more; 12 with less.
fn hands(need: usize, call: Call) -> Vec<u8> {
    let mut exact = vec![OLD; need];
    let mut length = OLD_LENGTH;
    assert_eq!(call(exact.as_mut_ptr(), need, &mut length), 0);
    assert_eq!(length, need as u64);

    let mut more = vec![OLD; need + 1000];
    let mut length = OLD_LENGTH;
    assert_eq!(call(more.as_mut_ptr(), more.len(), &mut length), 0);
    assert_eq!(length, need as u64);
    assert_eq!(more[..need], exact);
    assert!(more[need..].iter().all(|&b| b == OLD));

    if need > 0 {
        for room in [0, need / 2, need - 1] {
            let mut out = vec![OLD; room];
            let mut length = OLD_LENGTH;
            assert_eq!(call(out.as_mut_ptr(), room, &mut length), 12);
            assert_eq!(length, OLD_LENGTH);
            assert!(out.iter().all(|&b| b == OLD));
        }
    }
    exact
}

fn refuses_numbers(due: u8, call: Numbers) {
    for room in [0, 1, 20] {
        let mut fields = vec![OLD_LENGTH; room];
        assert_eq!(call(fields.as_mut_ptr(), room), due);
        assert!(fields.iter().all(|&n| n == OLD_LENGTH));
    }
}

fn hands_numbers(need: usize, call: Numbers) -> Vec<u64> {
    let mut fields = vec![OLD_LENGTH; need + 3];
    assert_eq!(call(fields.as_mut_ptr(), need + 3), 0);
    assert_eq!(fields[need..], [OLD_LENGTH; 3]);
    for room in 0..need {
        let mut short = vec![OLD_LENGTH; room];
        assert_eq!(call(short.as_mut_ptr(), room), 12);
        assert!(short.iter().all(|&n| n == OLD_LENGTH));
    }
    fields.truncate(need);
    fields
}

#[test]
fn calls_on_a_flat_disk() {
    let d = disk();
    let mut ring = disk();
    ring[common::at(18, 14) + 1] = 18;
    ring[common::at(18, 14) + 2] = 15;
    let mut letter = disk();
    letter[common::at(17, 14) + 11 + 35 * 6 + 3] = 0x80;
    let (p, n) = (d.as_ptr(), d.len());
    let (rp, lp) = (ring.as_ptr(), letter.as_ptr());
    unsafe {
        let window = hands(256, &|o, m, l| dos33_window(p, n, p, 0, 1, 18, 1, o, m, l));
        assert_eq!(window, d[common::at(18, 1)..common::at(18, 2)]);
        assert_eq!(
            hands(256, &|o, m, l| dos33_window(p, 0, p, n, 0, 18, 1, o, m, l)),
            window
        );
        // Any yes is a yes.
        assert_eq!(
            hands(256, &|o, m, l| dos33_window(
                p, n, p, 0, 200, 18, 1, o, m, l
            )),
            window
        );
        refuses(1, &|o, m, l| dos33_window(p, n, p, 0, 0, 99, 1, o, m, l));
        refuses(3, &|o, m, l| dos33_window(p, n, p, 0, 1, 35, 1, o, m, l));

        assert_eq!(
            hands(3 * 37, &|o, m, l| dos33_catalog(p, n, o, m, l))[5..11],
            *b"LINE 7"
        );
        refuses(1, &|o, m, l| dos33_catalog(p, n - 1, o, m, l));
        // The bad letter is on the second page: nothing of the first is handed over.
        refuses(6, &|o, m, l| dos33_catalog(lp, n, o, m, l));

        assert_eq!(
            hands(4, &|o, m, l| dos33_lists(p, n, 0, o, m, l)),
            [18, 15, 18, 14]
        );
        assert_eq!(
            hands(0, &|o, m, l| dos33_lists(p, n, u64::MAX, o, m, l)),
            []
        );
        refuses(4, &|o, m, l| dos33_lists(rp, n, 2, o, m, l));

        assert_eq!(
            hands(4, &|o, m, l| dos33_pairs(p, n, 18, 15, o, m, l)),
            [18, 1, 18, 2]
        );
        refuses(3, &|o, m, l| dos33_pairs(p, n, 255, 255, o, m, l));

        assert_eq!(
            hands(600, &|o, m, l| dos33_file(p, n, 0, o, m, l)),
            common::binary()
        );
        assert_eq!(hands(0, &|o, m, l| dos33_file(p, n, 3, o, m, l)), []);
        refuses(4, &|o, m, l| dos33_file(rp, n, 2, o, m, l));

        let name = b"LINE 7";
        let got = hands(3, &|o, m, l| dos33_fetch(p, n, name.as_ptr(), 6, o, m, l));
        assert_eq!(got, [11, 22, 33]);
        refuses(18, &|o, m, l| dos33_fetch(p, n, name.as_ptr(), 5, o, m, l));
        refuses(4, &|o, m, l| dos33_fetch(rp, n, name.as_ptr(), 5, o, m, l));

        let archive = hands(8 * 256, &|o, m, l| dos33_archive_write(p, n, o, m, l));
        assert_eq!(
            dos33_archive_check(p, n, archive.as_ptr(), archive.len()),
            0
        );
        assert_eq!(
            dos33_archive_check(p, n, archive.as_ptr(), archive.len() - 1),
            13
        );
        refuses(4, &|o, m, l| dos33_archive_write(rp, n, o, m, l));
        let large = common::large(16);
        refuses(7, &|o, m, l| {
            dos33_archive_write(large.as_ptr(), n, o, m, l)
        });

        let vtoc = hands_numbers(13, &|f, m| dos33_vtoc(p, n, f, m));
        assert_eq!(
            vtoc,
            [17, 15, 3, 254, 122, 18, 255, 35, 16, 256, 15, 545, 97]
        );
        refuses_numbers(1, &|f, m| dos33_vtoc(p, 0, f, m));
        let survey = hands_numbers(7, &|f, m| dos33_survey(p, n, f, m));
        assert_eq!(survey, [254, 3, 15, 545, 97, 8, 6]);
        refuses_numbers(4, &|f, m| dos33_survey(rp, n, f, m));
        let holders = hands_numbers(5, &|f, m| dos33_holders(p, n, f, m));
        assert_eq!(holders, [548, 12, 0, 0, 1]);
        refuses_numbers(1, &|f, m| dos33_holders(p, n - 1, f, m));
        refuses_numbers(4, &|f, m| dos33_holders(rp, n, f, m));
        refuses_numbers(6, &|f, m| dos33_holders(lp, n, f, m));
        // The free sectors are on track 0: none is taken.
        let plan = [0u64, 32_768, u64::MAX];
        let (q, k) = (plan.as_ptr(), plan.len());
        let forecast = hands_numbers(6, &|f, m| dos33_forecast(p, n, q, k, f, m));
        assert_eq!(forecast, [0, 0, 0, 1, 1, 1]);
        assert_eq!(
            hands_numbers(3, &|f, m| dos33_forecast(p, n, q, 0, f, m)),
            [0, 0, 0]
        );
        refuses_numbers(1, &|f, m| dos33_forecast(p, n - 1, q, k, f, m));
        refuses_numbers(4, &|f, m| dos33_forecast(rp, n, q, k, f, m));
        refuses_numbers(6, &|f, m| dos33_forecast(lp, n, q, k, f, m));
        let long = [1u64; 65];
        refuses_numbers(25, &|f, m| dos33_forecast(p, n, long.as_ptr(), 65, f, m));
        refuses_numbers(25, &|f, m| dos33_forecast(p, 0, long.as_ptr(), 65, f, m));

        let (a, k) = (archive.as_ptr(), archive.len());
        assert_eq!(
            hands_numbers(3, &|f, m| dos33_archive_open(a, k, f, m)),
            [254, 1, 8]
        );
        refuses_numbers(13, &|f, m| dos33_archive_open(a, k - 1, f, m));
        let entry = hands_numbers(8, &|f, m| dos33_archive_entry(a, k, 1, f, m));
        assert_eq!(entry, [1, 5, 2, 4, 1, 6, 5, 600]);
        let entry = hands_numbers(8, &|f, m| dos33_archive_entry(a, k, 5, f, m));
        assert_eq!(entry, [1, 6, 0, 0, 0, 5, 2, 0]);
        let entry = hands_numbers(8, &|f, m| dos33_archive_entry(a, k, 6, f, m));
        assert_eq!(entry, [1, 0, 7, 4, 0, 6, 0x102, 3]);
        for block in [0, 2, 3, 4, 7, 8, 4096, u64::MAX, 1 << 56, (1 << 56) + 1] {
            let end = hands_numbers(8, &|f, m| dos33_archive_entry(a, k, block, f, m));
            assert_eq!(end, [0; 8], "block {block}");
        }
        refuses_numbers(13, &|f, m| dos33_archive_entry(a, k - 256, 1, f, m));
    }
}

#[test]
fn calls_on_streams() {
    let d = disk();
    let (p, n) = (d.as_ptr(), d.len());
    unsafe {
        let stream = hands(232_960, &|o, m, l| dos33_nibblize(p, n, o, m, l));
        refuses(1, &|o, m, l| dos33_nibblize(p, n - 1, o, m, l));
        let (s, k) = (stream.as_ptr(), stream.len());
        assert_eq!(
            hands(143_360, &|o, m, l| dos33_denibblize(s, k, o, m, l)),
            d
        );
        assert_eq!(
            hands(256, &|o, m, l| dos33_sector(s, k, 254, 0, 0, o, m, l)),
            d[..256]
        );
        refuses(10, &|o, m, l| dos33_denibblize(s, k - 1, o, m, l));
        refuses(10, &|o, m, l| dos33_sector(s, k, 0, 0, 0, o, m, l));
        // The last field is bad: nothing of those before it is handed over.
        let last = common::field(34, 15);
        let (mut eight, mut nine, mut eleven) = (stream.clone(), stream.clone(), stream.clone());
        eight[last + 58] ^= 1;
        nine[last + 412] = if nine[last + 412] == 0x96 { 0x97 } else { 0x96 };
        common::address(&mut eleven, last, 254, 34, 16);
        for (bad, due) in [(&eight, 8), (&nine, 9), (&eleven, 11)] {
            refuses(due, &|o, m, l| dos33_denibblize(bad.as_ptr(), k, o, m, l));
        }
        refuses(8, &|o, m, l| {
            dos33_sector(eight.as_ptr(), k, 254, 0, 0, o, m, l)
        });
        refuses(9, &|o, m, l| {
            dos33_sector(nine.as_ptr(), k, 254, 0, 0, o, m, l)
        });
        let nibbles = hands(343, &|o, m, l| dos33_encode_sector(p, 256, o, m, l));
        assert_eq!(nibbles, stream[70..413]);
        refuses(1, &|o, m, l| dos33_encode_sector(p, 257, o, m, l));
        assert_eq!(dos33_recognize_prologue(s, k), 0x96);
        assert_eq!(dos33_recognize_prologue(s, 50), 0);
        assert_eq!(
            hands_numbers(1, &|f, m| dos33_format_from_data(p, n, f, m)),
            [0]
        );
        refuses_numbers(17, &|f, m| dos33_format_from_data(p, 8, f, m));
    }
}

// What a save or a delete is lent: the disk, the name and the data, each a pointer and a length.
type Lent = ((*mut u8, usize), (*const u8, usize), (*const u8, usize));

// Refused: disk, name and data stay, and what lies round them.
fn keeps(due: u8, parts: [&[u8]; 3], call: &dyn Fn(Lent) -> u8) {
    let round = |part: &[u8]| [&[OLD; 40], part, &[OLD; 40]].concat();
    let before = parts.map(round);
    let [mut d, name, data] = before.clone();
    let [n, m, k] = parts.map(<[u8]>::len);
    let lent = (
        (d[40..].as_mut_ptr(), n),
        (name[40..].as_ptr(), m),
        (data[40..].as_ptr(), k),
    );
    assert_eq!(call(lent), due);
    assert!([d, name, data] == before);
}

#[test]
fn refused_saves_and_deletes() {
    let good = with_files();
    let poked = |i: usize, pokes: &[u8]| {
        let mut d = good.clone();
        d[i..i + pokes.len()].copy_from_slice(pokes);
        d
    };
    let table = common::at(17, 0);
    let mut full = good.clone();
    only_free(&mut full, &[]);
    let bad = [
        (1, good[1..].to_vec()),
        (2, poked(table + 52, &[36])),
        (3, poked(table + 1, &[35])),
        (4, poked(common::at(17, 14) + 1, &[17, 15])),
        (5, poked(common::at(18, 14) + 1, &[18])),
        (6, poked(common::at(17, 15) + 14, &[0x80])),
        (20, poked(table + 56 + 4 * 17 + 1, &[1])),
    ];
    let long = bytes(32_769);
    unsafe {
        let save = |(d, n, f): Lent| dos33_save(d.0, d.1, n.0, n.1, 0x2000, f.0, f.1);
        let delete = |(d, n, _): Lent| dos33_delete(d.0, d.1, n.0, n.1);
        let save_for = |side, limit| {
            move |(d, n, f): Lent| dos33_save_for(d.0, d.1, side, limit, n.0, n.1, 0x2000, f.0, f.1)
        };
        let delete_for =
            |side, limit| move |(d, n, _): Lent| dos33_delete_for(d.0, d.1, side, limit, n.0, n.1);
        for (due, d) in &bad {
            keeps(*due, [d, b"NEW", b"7"], &save);
            keeps(*due, [d, b"NOTES", b""], &delete);
            for side in [0, 1] {
                keeps(*due, [d, b"NEW", b"7"], &save_for(side, 0));
                keeps(*due, [d, b"NOTES", b""], &delete_for(side, 0));
            }
        }
        keeps(14, [&good, b"", b"7"], &save);
        keeps(14, [&good, b"S ", b""], &delete);
        keeps(14, [&good, b"S ", b"7"], &save_for(0, 0));
        keeps(14, [&good, b"", b""], &delete_for(1, 0));
        keeps(22, [&good, b"NOTES", b"7"], &save);
        keeps(22, [&good, b"NOTES", b"7"], &save_for(0, 0));
        keeps(23, [&good, b"NOTES", b"7"], &save_for(1, 0));
        keeps(23, [&good, b"NOTES", b""], &delete_for(1, 0));
        keeps(23, [&good, b"S", b""], &delete_for(0, 0));
        keeps(24, [&good, b"NEW", b"7"], &save_for(0, 10));
        keeps(24, [&good, b"S", &long], &save_for(255, 130));
        keeps(21, [&good, b"S", &long], &save_for(255, 131));
        keeps(21, [&full, b"NEW", b"7"], &save_for(0, 11));
        keeps(21, [&full, b"NEW", b"7"], &save);
        keeps(21, [&good, b"NEW", &long], &save);
        keeps(18, [&good, b"NEW", b""], &delete);
        keeps(18, [&good, b"NEW", b""], &delete_for(0, 0));
    }
}

// The words of all numbers; `refusals.rs` has what each is.
#[test]
fn words_of_refusals() {
    let word = |number| move |o, m, l| unsafe { dos33_refusal_word(number, o, m, l) };
    assert_eq!(hands(4, &word(4)), b"ring");
    assert_eq!(hands(15, &word(14)), b"unwritable name");
    assert_eq!(hands(11, &word(18)), b"not on roll");
    assert_eq!(hands(9, &word(20)), b"not clean");
    assert_eq!(hands(8, &word(21)), b"no space");
    assert_eq!(hands(10, &word(22)), b"name taken");
    assert_eq!(hands(17, &word(23)), b"other side's name");
    assert_eq!(hands(10, &word(24)), b"over limit");
    assert_eq!(hands(9, &word(25)), b"plan long");
    for number in (26..=255).chain([0, 19]) {
        assert_eq!(hands(0, &word(number)), b"");
    }
}

// A disk of 13 sectors a track: the same bytes and numbers, but for free, used and where the lists stand.
#[test]
fn calls_on_a_flat_disk_of_13() {
    let d = disk_13();
    let mut ring = d.clone();
    ring[at_13(18, 11) + 1] = 18;
    ring[at_13(18, 11) + 2] = 12;
    let mut table = d.clone();
    table[at_13(17, 0) + 53] = 16;
    let (p, n) = (d.as_ptr(), d.len());
    let (rp, tp) = (ring.as_ptr(), table.as_ptr());
    unsafe {
        let window = hands(256, &|o, m, l| dos33_window(p, n, p, 0, 1, 18, 12, o, m, l));
        assert_eq!(window, d[at_13(18, 12)..at_13(19, 0)]);
        assert_eq!(
            hands(256, &|o, m, l| dos33_window(p, 0, p, n, 0, 18, 12, o, m, l)),
            window
        );
        refuses(1, &|o, m, l| {
            dos33_window(p, n - 1, p, n, 1, 18, 12, o, m, l)
        });
        refuses(3, &|o, m, l| dos33_window(p, n, p, 0, 1, 18, 13, o, m, l));
        refuses(3, &|o, m, l| dos33_window(p, 0, p, n, 0, 18, 13, o, m, l));

        hands(3 * 37, &|o, m, l| dos33_catalog(p, n, o, m, l));
        refuses(1, &|o, m, l| dos33_catalog(p, n - 1, o, m, l));
        refuses(2, &|o, m, l| dos33_catalog(tp, n, o, m, l));
        assert_eq!(
            hands(4, &|o, m, l| dos33_lists(p, n, 0, o, m, l)),
            [18, 12, 18, 11]
        );
        refuses(2, &|o, m, l| dos33_lists(tp, n, 0, o, m, l));
        refuses(4, &|o, m, l| dos33_lists(rp, n, 2, o, m, l));
        assert_eq!(
            hands(4, &|o, m, l| dos33_pairs(p, n, 18, 12, o, m, l)),
            [18, 1, 18, 2]
        );
        refuses(3, &|o, m, l| dos33_pairs(p, n, 18, 13, o, m, l));
        assert_eq!(
            hands(600, &|o, m, l| dos33_file(p, n, 0, o, m, l)),
            common::binary()
        );
        refuses(4, &|o, m, l| dos33_file(rp, n, 0, o, m, l));
        let name = b"LINE 7";
        let got = hands(3, &|o, m, l| dos33_fetch(p, n, name.as_ptr(), 6, o, m, l));
        assert_eq!(got, [11, 22, 33]);
        refuses(18, &|o, m, l| dos33_fetch(p, n, name.as_ptr(), 5, o, m, l));
        refuses(2, &|o, m, l| dos33_fetch(tp, n, name.as_ptr(), 5, o, m, l));

        let archive = hands(8 * 256, &|o, m, l| dos33_archive_write(p, n, o, m, l));
        let (a, k) = (archive.as_ptr(), archive.len());
        assert_eq!(dos33_archive_check(p, n, a, k), 0);
        assert_eq!(dos33_archive_check(p, n, a, k - 1), 13);
        assert_eq!(dos33_archive_check(rp, n, a, k), 4);
        refuses(4, &|o, m, l| dos33_archive_write(rp, n, o, m, l));

        assert_eq!(
            hands_numbers(13, &|f, m| dos33_vtoc(p, n, f, m)),
            [17, 12, 3, 254, 122, 18, 255, 35, 13, 256, 13, 442, 97]
        );
        refuses_numbers(2, &|f, m| dos33_vtoc(tp, n, f, m));
        assert_eq!(
            hands_numbers(7, &|f, m| dos33_survey(p, n, f, m)),
            [254, 3, 13, 442, 97, 8, 6]
        );
        refuses_numbers(4, &|f, m| dos33_survey(rp, n, f, m));
        assert_eq!(
            hands_numbers(5, &|f, m| dos33_holders(p, n, f, m)),
            [443, 12, 0, 0, 1]
        );
        refuses_numbers(2, &|f, m| dos33_holders(tp, n, f, m));
        refuses_numbers(4, &|f, m| dos33_holders(rp, n, f, m));
        refuses(1, &|o, m, l| dos33_nibblize(p, n, o, m, l));
        refuses_numbers(1, &|f, m| dos33_forecast(p, n, [1].as_ptr(), 1, f, m));
    }
}

#[test]
fn calls_on_streams_of_13() {
    let d = disk_13();
    let stream = five_three::stream(&d, 254);
    let (s, k) = (stream.as_ptr(), stream.len());
    unsafe {
        assert_eq!(
            hands(116_480, &|o, m, l| dos33_denibblize_13(s, k, o, m, l)),
            d
        );
        assert_eq!(
            hands(256, &|o, m, l| dos33_sector_13(s, k, 254, 18, 1, o, m, l)),
            d[at_13(18, 1)..at_13(18, 2)]
        );
        refuses(10, &|o, m, l| dos33_denibblize_13(s, k - 1, o, m, l));
        refuses(10, &|o, m, l| dos33_denibblize_13(s, 0, o, m, l));
        refuses(10, &|o, m, l| dos33_sector_13(s, k, 0, 0, 0, o, m, l));
        refuses(10, &|o, m, l| dos33_sector_13(s, k, 254, 0, 13, o, m, l));
        refuses(10, &|o, m, l| dos33_denibblize(s, k, o, m, l));
        // The last field is bad: nothing of those before it is handed over.
        let last = k - five_three::FIELD;
        let (mut eight, mut nine, mut eleven) = (stream.clone(), stream.clone(), stream.clone());
        eight[last + five_three::ADDRESS + 7] ^= 1;
        let sum = last + five_three::SUM;
        nine[sum] = if nine[sum] == 0xAB { 0xAD } else { 0xAB };
        let far = five_three::address(254, 34, 13, 254 ^ 34 ^ 13);
        eleven[last + 40..last + 51].copy_from_slice(&far);
        for (bad, due) in [(&eight, 8), (&nine, 9), (&eleven, 11)] {
            refuses(due, &|o, m, l| {
                dos33_denibblize_13(bad.as_ptr(), k, o, m, l)
            });
        }
        for (bad, due) in [(&eight, 8), (&nine, 9)] {
            refuses(due, &|o, m, l| {
                dos33_sector_13(bad.as_ptr(), k, 254, 0, 0, o, m, l)
            });
        }
        // By key there is no 11.
        hands(256, &|o, m, l| {
            dos33_sector_13(eleven.as_ptr(), k, 254, 34, 13, o, m, l)
        });
        assert_eq!(dos33_recognize_prologue(s, k), 0xB5);
    }
}

#[test]
fn record_writers() {
    let name = [b'A'; 31];
    let a = name.as_ptr();
    let mut listed = [0u8; 37 * 8];
    for e in listed.chunks_exact_mut(37) {
        e[..6].copy_from_slice(&[18, 15, 99, 7, 1, b'A']);
        // Past the name's length: not read.
        e[6..35].fill(0xFF);
        e[35] = 2;
    }
    let e = listed.as_ptr();
    unsafe {
        let record = hands(35, &|o, m, l| {
            dos33_entry_record(18, 15, 99, 7, a, 1, 2, o, m, l)
        });
        assert_eq!(record[..5], [18, 15, 41 + 128, 0xC1, 0xA0]);
        refuses(14, &|o, m, l| {
            dos33_entry_record(18, 15, 4, 0, a, 0, 2, o, m, l)
        });
        refuses(14, &|o, m, l| {
            dos33_entry_record(18, 15, 4, 0, a, 31, 2, o, m, l)
        });
        // Entries that fit whole: seven and a part are seven.
        let page = hands(256, &|o, m, l| {
            dos33_catalog_page(a, 2, e, 37 * 8 - 1, o, m, l)
        });
        assert_eq!(page[..11], [b'A', b'A', 0, 0, 0, 0, 0, 0, 0, 0, 0]);
        assert!(page[11..].chunks_exact(35).all(|r| r == record));
        refuses(16, &|o, m, l| dos33_catalog_page(a, 2, e, 37 * 8, o, m, l));
        let mut bad = listed;
        bad[37 * 6 + 4] = 31;
        refuses(14, &|o, m, l| {
            dos33_catalog_page(a, 2, bad.as_ptr(), 37 * 7, o, m, l)
        });
        let file = hands(9, &|o, m, l| {
            dos33_binary_file(4, 0x1234, 0x5678, a, 5, o, m, l)
        });
        assert_eq!(file, b"\x34\x12\x78\x56AAAAA");
        refuses(15, &|o, m, l| dos33_binary_file(5, 0, 0, a, 5, o, m, l));
    }
}
