//! Own asserts: records cut by a full card, made by hand, and what is salvaged of them.

use crate::channels::Form;
use crate::make_channels::sized_content;
use crate::named_records::{listing, sample};
use crate::numbers::refusal;
use crate::own_asserts::Checks;
use crate::record::{fnv, read_record, Content};
use crate::rejudging::rejudge_line;
use crate::salvage_modes::{kept_text, mode_salvages, salvage_outputs};
use crate::salvaging::{salvage, salvage_into};

/// An output longer than any record.
const LONG: usize = 70_000;

/// Seven settings and 29 saturation values with their counts: 74 bytes.
fn site() -> Vec<u8> {
    let mut bytes = vec![7];
    for setting in [1u16, 2005, 125, 2, 50, 20, 1013] {
        bytes.extend(setting.to_le_bytes());
    }
    bytes.push(29);
    for i in 0..29u16 {
        bytes.extend((1259 + 60 * i).to_le_bytes());
    }
    bytes
}

/// The sections before the row count, which is at 81.
fn narrow() -> Vec<u8> {
    [&[6, 1, 2, 4, 5, 6, 7][..], &site()].concat()
}

/// The same with code 300 besides, and the row count at 91.
fn wide() -> Vec<u8> {
    let channels = [0, 7, 0, 1, 0, 2, 0, 4, 0, 5, 0, 6, 0, 7, 0, 44, 1];
    [&channels[..], &site()].concat()
}

/// A row count, rows of 24 or 28 bytes that are all the same in each, and bytes behind.
fn record(head: &[u8], count: u16, rows: &[u8], behind: &[u8]) -> Vec<u8> {
    let row = if head[0] == 0 { 28 } else { 24 };
    let rows: Vec<u8> = rows.iter().flat_map(|byte| vec![*byte; row]).collect();
    [head, &count.to_le_bytes(), &rows, behind].concat()
}

/// Kept, lost, dropped, stops lost.
type Told = [usize; 4];

fn told(bytes: &[u8]) -> String {
    let salvaged = salvage(bytes, LONG);
    salvaged.map_or_else(|r| r.to_string(), |salvaged| kept_text(&salvaged))
}

fn text_of([kept, lost, dropped, stops_lost]: Told) -> String {
    format!("kept {kept} lost {lost} dropped {dropped} stops_lost {stops_lost}")
}

/// A count, whole rows and bytes behind, in both forms: what is told, and the record with the stops section
/// that is expected. It is the same in an output that is exact, and 10 in a shorter one.
fn both(checks: &mut Checks, given: (u16, &[u8], &[u8]), want: Told, stops: &[u8]) {
    let (count, rows, behind) = given;
    let (there, more) = (rows.len(), behind.len());
    let first = &behind[..more.min(10)];
    let name = format!("{count} rows, {there} there, {more} bytes behind, first {first:?}");
    for head in [narrow(), wide()] {
        let input = record(&head, count, rows, behind);
        let written = record(&head, want[0] as u16, &rows[..want[0]], stops);
        let salvaged = salvage(&input, written.len()).map(|salvaged| salvaged.bytes);
        checks.same(&name, told(&input), text_of(want));
        checks.same(&name, salvaged, Ok(written.clone()));
        let short = Err(refusal(10, written.len()));
        checks.same(&name, salvage(&input, written.len() - 1), short.clone());
        checks.same(&name, salvage(&input, 0), short);
    }
}

/// "As many leading whole rows as there are, up to the count."
pub fn check_salvaged_rows(checks: &mut Checks) {
    let none: &[u8] = &[0];
    both(checks, (2, &[9, 8], &[0]), [2, 0, 0, 0], none);
    both(checks, (0, &[], &[0]), [0, 0, 0, 0], none);
    both(checks, (0, &[], &[]), [0, 0, 0, 1], none);
    both(checks, (1, &[], &[]), [0, 1, 0, 1], none);
    both(checks, (1500, &[], &[]), [0, 1500, 0, 1], none);
    both(checks, (2, &[9, 8], &[]), [2, 0, 0, 1], none);
    both(checks, (3, &[9, 8], &[]), [2, 1, 0, 1], none);
    both(checks, (300, &[9, 8], &[5, 5]), [2, 298, 2, 1], none);
    both(checks, (1500, &[9, 8], &[5]), [2, 1498, 1, 1], none);
    for half in 1..24 {
        both(
            checks,
            (3, &[9, 8], &[7; 24][..half]),
            [2, 1, half, 1],
            none,
        );
        both(checks, (1, &[], &[7; 24][..half]), [0, 1, half, 1], none);
    }
    // "With fewer whole rows than the count no stops section is looked for."
    for half in [
        &[0][..],
        &[0, 0],
        &[1, 0, 0, 1],
        &[2, 0, 0, 1, 1, 0, 4],
        &[0; 23],
    ] {
        both(checks, (3, &[9, 8], half), [2, 1, half.len(), 1], none);
        both(checks, (1, &[], half), [0, 1, half.len(), 1], none);
        both(checks, (257, &[9], half), [1, 256, half.len(), 1], none);
    }
}

/// "Where the count is smaller than the rows there, what follows the last counted row is the stops section
/// if it is one (a first byte 0 is), the rest is dropped."
pub fn check_salvaged_luck(checks: &mut Checks) {
    let (none, one): (&[u8], &[u8]) = (&[0], &[1, 0, 0, 1]);
    let then = |start: &[u8], more: usize| [start, &vec![6; more][..]].concat();
    for more in [24, 28, 56, 300] {
        both(checks, (1, &[9], &then(&[0], more)), [1, 0, more, 0], none);
        both(checks, (1, &[9], &then(one, more)), [1, 0, more, 0], one);
        both(
            checks,
            (1, &[9], &then(&[1, 1, 0, 4], more)),
            [1, 0, more, 0],
            &[1, 1, 0, 4],
        );
        both(
            checks,
            (1, &[9], &then(&[1, 2, 0, 1], more)),
            [1, 0, more + 4, 1],
            none,
        );
        both(
            checks,
            (1, &[9], &then(&[1, 0, 0, 0], more)),
            [1, 0, more + 4, 1],
            none,
        );
        both(
            checks,
            (1, &[9], &then(&[255], more)),
            [1, 0, more + 1, 1],
            none,
        );
        both(checks, (0, &[], &then(&[0], more)), [0, 0, more, 0], none);
        both(checks, (0, &[], &then(one, more)), [0, 0, more, 0], one);
        both(
            checks,
            (0, &[], &then(&[1, 1, 0, 1], more)),
            [0, 0, more + 4, 1],
            none,
        );
        both(
            checks,
            (0, &[], &then(&[200], more)),
            [0, 0, more + 1, 1],
            none,
        );
    }
    // Eight stops behind one row of six channels fill a row of a count of 2, and nine one of seven.
    let eight = [&[8][..], &[0, 0, 2].repeat(8)].concat();
    let input = [&narrow()[..], &[2, 0], &[9; 24], &eight].concat();
    let written = [&narrow()[..], &[2, 0], &[9; 24], &eight[..24], &[0]].concat();
    checks.same("stops as a row", told(&input), text_of([2, 0, 1, 1]));
    checks.same("stops as a row", salvage_outputs(&input).0, written);
    let nine = [&[9][..], &[0, 0, 2].repeat(9)].concat();
    let input = record(&wide(), 2, &[9], &nine);
    checks.same("stops as a row", told(&input), text_of([2, 0, 0, 1]));
    checks.same(
        "stops as a row",
        salvage_outputs(&input).0,
        [input, vec![0]].concat(),
    );
}

/// "The stops are kept if their section is complete and fit, otherwise none are written."
pub fn check_salvaged_stops(checks: &mut Checks) {
    let fit: [&[u8]; 7] = [
        &[0],
        &[1, 0, 0, 1],
        &[1, 2, 0, 4], // as many as the rows
        &[2, 1, 0, 2, 1, 0, 3],
        &[2, 0, 0, 1, 2, 0, 1],
        &[3, 0, 0, 4, 1, 0, 3, 2, 0, 2],
        &[4, 2, 0, 1, 2, 0, 1, 2, 0, 1, 2, 0, 1],
    ];
    let behind: [&[u8]; 5] = [&[], &[0], &[1], &[1, 0, 0, 1], &[0; 30]];
    for stops in fit {
        // "Bytes after a kept stops section are dropped and counted, the stops stay."
        for more in behind {
            let there = [stops, more].concat();
            both(checks, (2, &[9, 8], &there), [2, 0, more.len(), 0], stops);
        }
        // Cut: "otherwise none are written".
        for length in 0..stops.len() {
            let cut = &stops[..length];
            both(checks, (2, &[9, 8], cut), [2, 0, length, 1], &[0]);
        }
    }
    let unfit: [&[u8]; 12] = [
        &[1, 3, 0, 1], // one past the rows
        &[1, 0, 1, 1], // 256
        &[1, 2, 1, 1], // 258
        &[1, 0, 0, 0],
        &[1, 0, 0, 5],
        &[1, 0, 0, 255],
        &[2, 1, 0, 1, 0, 0, 1], // falling
        &[2, 2, 0, 1, 1, 0, 1],
        &[2, 0, 0, 0, 1, 0, 1],
        &[2, 0, 0, 1, 1, 0, 0],
        &[2, 1, 0, 1, 3, 0, 1],
        &[3, 0, 0, 1, 2, 0, 1, 1, 0, 1],
    ];
    for stops in unfit {
        for more in behind {
            let there = [stops, more].concat();
            both(checks, (2, &[9, 8], &there), [2, 0, there.len(), 1], &[0]);
        }
    }
    let most = [&[255][..], &[1, 0, 4].repeat(255)].concat();
    both(checks, (1, &[9], &most), [1, 0, 0, 0], &most);
    both(checks, (1, &[9], &most[..765]), [1, 0, 765, 1], &[0]);
    both(checks, (0, &[], &most), [0, 0, 766, 1], &[0]);
    let more = [&most[..], &[0; 4]].concat();
    both(checks, (1, &[9], &more), [1, 0, 4, 0], &most);
}

/// "Earlier sections are refused as a reader refuses them, a missing row count too": no byte and one byte of it.
pub fn check_salvage_early(checks: &mut Checks) {
    for (head, count_at) in [(narrow(), 81), (wide(), 91)] {
        let input = record(&head, 1, &[9], &[0]);
        for length in 0..=count_at + 1 {
            let want = format!("refused 1 {length}");
            checks.same("cut early", told(&input[..length]), want);
        }
        let at_count = told(&input[..count_at + 2]);
        checks.same("row count whole", at_count, text_of([0, 1, 0, 1]));
        // One byte of 1,501 and of 65,535.
        for low in [0xDD, 0xFF] {
            let half = [&head[..], &[low]].concat();
            checks.same(
                "half of 21",
                told(&half),
                format!("refused 1 {}", count_at + 1),
            );
        }
    }
}

/// One byte changed in both forms: how it is refused, whole, with a row count of 65,535, cut before it, and
/// into no output.
fn changed(checks: &mut Checks, at: [usize; 2], byte: u8, number: u8, places: [usize; 2]) {
    for ((head, at), place) in [narrow(), wide()].iter().zip(at).zip(places) {
        let mut input = record(head, 1, &[9], &[0]);
        let row_count = head.len();
        input[at] = byte;
        let want = Err(refusal(number, place));
        let name = format!("byte {at} is {byte}");
        checks.same(&name, salvage(&input, LONG), want.clone());
        checks.same(&name, salvage(&input, 0), want.clone());
        checks.same(
            &name,
            read_record(&input).map(|_| ()),
            Err(refusal(number, place)),
        );
        checks.same(&name, salvage(&input[..row_count], LONG), want.clone());
        checks.same(&name, salvage(&input[..row_count + 1], LONG), want.clone());
        input[row_count..row_count + 2].fill(255);
        checks.same(&name, salvage(&input, LONG), want);
    }
}

pub fn check_salvage_refusals(checks: &mut Checks) {
    changed(checks, [7, 17], 6, 2, [7, 17]);
    changed(checks, [7, 17], 0, 2, [7, 17]);
    changed(checks, [22, 32], 28, 2, [22, 32]);
    changed(checks, [22, 32], 30, 2, [22, 32]);
    changed(checks, [6, 13], 0, 3, [6, 13]);
    changed(checks, [6, 13], 1, 3, [6, 13]);
    changed(checks, [6, 13], 9, 3, [0, 1]);
    changed(checks, [1, 3], 3, 3, [0, 1]);
    changed(checks, [8, 18], 3, 4, [8, 18]);
    changed(checks, [14, 24], 3, 4, [14, 24]);
    changed(checks, [21, 31], 9, 4, [20, 30]);
    changed(checks, [24, 34], 1, 5, [23, 33]);
    changed(checks, [80, 90], 17, 5, [79, 89]);
    let channels = |at: usize, byte: u8, head: Vec<u8>| {
        let mut input = record(&head, 1501, &[9], &[0]);
        input[at] = byte;
        told(&input)
    };
    checks.same(
        "33 channels",
        channels(0, 33, narrow()),
        "refused 2 0".into(),
    );
    checks.same(
        "255 channels",
        channels(0, 255, narrow()),
        "refused 2 0".into(),
    );
    checks.same(
        "0 channels, wide",
        channels(1, 0, wide()),
        "refused 2 1".into(),
    );
    checks.same(
        "65 channels, wide",
        channels(1, 65, wide()),
        "refused 2 1".into(),
    );
    checks.same(
        "code 44 for 300",
        channels(16, 0, wide()),
        "refused 19 1".into(),
    );
    check_needless(checks);
}

/// "Refused: 19 wide form not needed", before the settings and before 21.
fn check_needless(checks: &mut Checks) {
    let bytes = listing(1).bytes_in(Form::Wide);
    let mut too_many = bytes.clone();
    too_many[89..91].fill(255);
    for input in [&bytes, &too_many] {
        checks.same("needless", told(input), "refused 19 1".into());
        for length in [15, 16, 30, 88, 89, 90, 91] {
            checks.same(
                "needless, cut",
                told(&input[..length]),
                "refused 19 1".into(),
            );
        }
        checks.same(
            "needless, cut in a code",
            told(&input[..14]),
            "refused 1 14".into(),
        );
    }
}

/// "Refused: 21 the row count is whole but more than document 01 allows, place its offset, after the earlier
/// sections." Reader and rejudging keep 2.
pub fn check_salvage_21(checks: &mut Checks) {
    for (head, count_at) in [(narrow(), 81), (wide(), 91)] {
        for count in [1501, 1502, 1536, 2000, 2500, 2501, 32_768, 65_535] {
            for behind in [&[][..], &[0], &[7; 30]] {
                let input = record(&head, count, &[], behind);
                let want = Err(refusal(21, count_at));
                checks.same("21", salvage(&input, LONG), want.clone());
                checks.same("21 before 10", salvage(&input, 0), want);
                let read = read_record(&input).map(|_| ());
                checks.same("the reader's 2", read, Err(refusal(2, count_at)));
                let line = format!("refused 2 {count_at}");
                checks.same("rejudging's 2", rejudge_line(&input), line);
            }
        }
        let allowed = told(&record(&head, 1500, &[], &[]));
        checks.same("1,500 rows", allowed, text_of([0, 1500, 0, 1]));
    }
    for (channels, most, count_at) in [
        (30, 500, 105),
        (60, 250, 197),
        (13, 1153, 88),
        (64, 234, 205),
    ] {
        let content = sized_content(channels, 1, 0);
        let with = |count: usize| {
            let mut bytes = content.bytes();
            bytes[count_at..count_at + 2].copy_from_slice(&(count as u16).to_le_bytes());
            bytes.pop();
            told(&bytes)
        };
        checks.same("cells allowed", with(most), text_of([1, most - 1, 0, 1]));
        checks.same(
            "a row more",
            with(most + 1),
            format!("refused 21 {count_at}"),
        );
    }
    let fifteen = with_rows(&sized_content(10, 0, 0), 1500);
    checks.same("1,500 rows of 10", told(&fifteen), text_of([0, 1500, 1, 1]));
    let eleven = with_rows(&sized_content(11, 0, 0), 1500);
    checks.same("1,500 rows of 11", told(&eleven), "refused 21 86".into());
}

fn with_rows(content: &Content, count: u16) -> Vec<u8> {
    let (mut bytes, at) = (content.bytes(), content.settings_at() + 74);
    bytes[at..at + 2].copy_from_slice(&count.to_le_bytes());
    bytes
}

/// "A refusal leaves the output as it was; bytes beyond the written record keep their values."
pub fn check_salvage_outputs(checks: &mut Checks) {
    let input = record(&narrow(), 3, &[9, 8], &[1, 2, 3]);
    let written = record(&narrow(), 2, &[9, 8], &[0]);
    let length = written.len();
    checks.same("length", length, 132);
    let mut out = vec![7; length + 3];
    let answer = salvage_into(&input, &mut out).map(|salvaged| kept_text(&salvaged));
    checks.same("salvaged", answer, Ok(text_of([2, 1, 3, 1])));
    checks.same("written", &out[..length], &written[..]);
    checks.same("beyond", &out[length..], &[7, 7, 7]);
    let unfit = record(&narrow(), 1501, &[], &[]);
    for (input, length, want) in [
        (&input, 131, refusal(10, 132)),
        (&input, 1, refusal(10, 132)),
        (&input, 0, refusal(10, 132)),
        (&unfit, 200, refusal(21, 81)),
        (&unfit, 2, refusal(21, 81)),
        (&vec![6, 1], 200, refusal(1, 2)),
    ] {
        let mut out = vec![7; length];
        checks.same("refused", salvage_into(input, &mut out), Err(want));
        checks.same("left as it was", out, vec![7; length]);
    }
    // Of a short output the length told is that of the salvaged record, not of the input.
    let longer = [&input[..], &[5; 10]].concat();
    checks.same("10's place", salvage(&longer, 5), Err(refusal(10, 132)));
    check_salvage_lines(checks, &input, &written);
}

/// The lines of the modes.
fn check_salvage_lines(checks: &mut Checks, input: &[u8], written: &[u8]) {
    let line = text_of([2, 1, 3, 1]);
    let outputs = salvage_outputs(input);
    checks.same("outputs", outputs, (written.to_vec(), line.clone()));
    let outputs = salvage_outputs(&input[..40]);
    checks.same("refused", outputs, (Vec::new(), "refused 1 40".to_string()));
    let mut items = Vec::new();
    for length in [134u32, 131] {
        items.extend(length.to_le_bytes());
        items.push(8);
        items.extend((input.len() as u32).to_le_bytes());
        items.extend(input);
    }
    let mut lines = Vec::new();
    mode_salvages(&items, &mut |line| lines.push(line.to_string()));
    let hashes = [fnv(&[written, &[8, 8]].concat()), fnv(&[8; 131])];
    let want = vec![
        format!("{line} written 132 {}", hashes[0]),
        format!("refused 10 132 {}", hashes[1]),
    ];
    checks.same("lines", lines, want);
}

/// The records by name: one that was cut, and what is salvaged of it.
pub fn check_cut_record(checks: &mut Checks) {
    let named = |name| sample(name).unwrap_or_default();
    let (cut, salvaged) = (named("cut"), named("salvaged"));
    // Seven channels: the row count at 82, 40 rows of 28 bytes, and half a one.
    checks.same("cut", cut.len(), 84 + 40 * 28 + 14);
    checks.same("row count", cut[82], 60);
    checks.same("cut told", told(&cut), text_of([40, 20, 14, 1]));
    checks.same("cut judged", rejudge_line(&cut), "refused 1 1218".into());
    checks.same("salvaged", salvage_outputs(&cut).0, salvaged.clone());
    checks.same("its length", salvaged.len(), 84 + 40 * 28 + 1);
    let line = rejudge_line(&salvaged);
    checks.same(
        "salvaged judged",
        line.starts_with("open 1 26 17 0 0 "),
        true,
    );
    checks.same("salvaged again", told(&salvaged), text_of([40, 0, 0, 0]));
    let intact = listing(36).bytes();
    let outputs = salvage_outputs(&intact);
    checks.same("intact", outputs, (intact, text_of([36, 0, 0, 0])));
}
