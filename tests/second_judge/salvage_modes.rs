//! The modes about a record cut by a full card.

use crate::items::Items;
use crate::modes::each_item;
use crate::programs::{each_against, Ended};
use crate::record::fnv;
use crate::salvaging::{salvage, salvage_into, Salvaged};
use std::io;

/// An output that every salvaged record fits in.
pub const ENOUGH: usize = 60_965;

pub fn kept_text(salvaged: &Salvaged) -> String {
    let Salvaged {
        kept,
        lost,
        dropped,
        stops_lost,
        ..
    } = salvaged;
    let stops_lost = u8::from(*stops_lost);
    format!("kept {kept} lost {lost} dropped {dropped} stops_lost {stops_lost}")
}

/// The salvaged record, none where it is refused, and the line.
pub fn salvage_outputs(bytes: &[u8]) -> (Vec<u8>, String) {
    match salvage(bytes, ENOUGH) {
        Ok(salvaged) => (salvaged.bytes.clone(), kept_text(&salvaged)),
        Err(refusal) => (Vec::new(), refusal.to_string()),
    }
}

/// Output length, fill, record.
pub fn salvage_item<'a>(items: &mut Items<'a>) -> Option<(usize, u8, &'a [u8])> {
    let (length, fill) = (items.u32()? as usize, items.u8()?);
    Some((length, fill, items.record()?))
}

pub fn next_salvage_line(items: &mut Items) -> Option<String> {
    let (length, fill, record) = salvage_item(items)?;
    let mut buffer = vec![fill; length];
    let outcome = salvage_into(record, &mut buffer);
    let hash = fnv(&buffer);
    Some(match outcome {
        Ok(salvaged) => {
            let written = salvaged.bytes.len();
            format!("{} written {written} {hash}", kept_text(&salvaged))
        }
        Err(refusal) => format!("{refusal} {hash}"),
    })
}

pub fn mode_salvages(data: &[u8], out: &mut impl FnMut(&str)) {
    each_item(data, out, next_salvage_line);
}

/// What a program should write for a record.
fn expected(record: &[u8]) -> Ended {
    let (output, line) = salvage_outputs(record);
    Ended {
        output,
        error: (line + "\n").into_bytes(),
        status: "0".to_string(),
    }
}

fn ended_text(ended: &Ended) -> String {
    let error = String::from_utf8_lossy(&ended.error).into_owned();
    let (bytes, hash) = (ended.output.len(), fnv(&ended.output));
    format!(
        "{error:?}, {bytes} bytes with hash {hash}, exit status {}",
        ended.status
    )
}

/// Runs a program on each record and compares all that it writes with ours. The first record that
/// differs is saved. True where none does.
pub fn mode_against_salvage(
    program: &str,
    data: &[u8],
    save: &str,
    out: &mut impl FnMut(&str),
) -> io::Result<bool> {
    each_against(data, ("record", save), out, |record| {
        let (expected, got) = (expected(record), Ended::of(program, record)?);
        let how = || {
            let (expected, got) = (ended_text(&expected), ended_text(&got));
            format!("expected {expected}; got {got}")
        };
        Ok((got != expected).then(how))
    })
}
