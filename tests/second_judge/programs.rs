//! Programs that are run on items and compared with ours.

use crate::items::Items;
use std::io::{self, Write};
use std::process::{Command, Stdio};

/// All that a program writes for its standard input, and its exit status.
#[derive(PartialEq, Eq)]
pub struct Ended {
    pub output: Vec<u8>,
    pub error: Vec<u8>,
    pub status: String,
}

impl Ended {
    /// The input is fed beside the reading of both outputs, so that neither waits for the other.
    pub fn of(program: &str, input: &[u8]) -> io::Result<Ended> {
        let mut child = Command::new(program)
            .stdin(Stdio::piped())
            .stdout(Stdio::piped())
            .stderr(Stdio::piped())
            .spawn()?;
        let mut pipe = child.stdin.take().expect("a piped input");
        let ended = std::thread::scope(|scope| {
            // A program that has its answer may leave the rest unread.
            scope.spawn(move || {
                let _ = pipe.write_all(input);
            });
            child.wait_with_output()
        })?;
        let status = ended.status.code();
        Ok(Ended {
            output: ended.stdout,
            error: ended.stderr,
            status: status.map_or("none".to_string(), |code| code.to_string()),
        })
    }

    pub fn text(&self) -> String {
        String::from_utf8_lossy(&self.output).into_owned()
    }
}

/// Looks at each item, and counts those of which `differs` tells nothing. Of the first that differs
/// it is told how, and the item is saved as what it is. True where none does.
pub fn each_against(
    data: &[u8],
    (what, save): (&str, &str),
    out: &mut impl FnMut(&str),
    differs: impl Fn(&[u8]) -> io::Result<Option<String>>,
) -> io::Result<bool> {
    let mut items = Items { data };
    let (mut same, mut other) = (0, 0);
    while let Some(item) = items.record() {
        let Some(how) = differs(item)? else {
            same += 1;
            continue;
        };
        other += 1;
        if other == 1 {
            std::fs::write(save, item)?;
            out(&format!("{how}: the {what} is {save}"));
        }
    }
    out(&format!("{same} passed, {other} failed"));
    Ok(other == 0)
}
