//! Running the crate's code so that a panic in it is caught and told.

use std::any::Any;
use std::cell::Cell;
use std::panic::{self, AssertUnwindSafe, Location};
use std::sync::Once;

/// A panic that was caught.
#[derive(Debug)]
pub struct Panic {
    pub message: String,
    pub place: Option<Place>,
}

/// A place of the crate's text at which an input can make it panic.
#[derive(Clone, Copy, Debug, PartialEq, Eq)]
pub enum Place {
    /// Refusal 6: collapsing asks for the border above.
    NoBorderAbove,
    /// Refusal 10: the blanks of a missing line are cut out of the row's.
    Blanks,
    /// Refusal 10: `to_string` meets a hole that begins before the one ahead of it ends.
    HoleOrder,
}

/// The places, each by what its line says.
const PLACES: [(&str, Place); 4] = [
    (
        "self.lines.back_mut().expect(\"No previous line\")",
        Place::NoBorderAbove,
    ),
    ("unreachable!();", Place::NoBorderAbove),
    ("spaces[0..ls.width].to_string()", Place::Blanks),
    ("in &self.segments[pos..*holepos] {", Place::HoleOrder),
];

/// The crate's text as it is compiled here.
const TEXT: &str = include_str!(concat!(env!("OUT_DIR"), "/render/text_renderer.rs"));
const FILE: &str = "text_renderer.rs";

thread_local! {
    static QUIET: Cell<bool> = const { Cell::new(false) };
    /// The line of the crate's text at which the last panic was.
    static LINE: Cell<Option<u32>> = const { Cell::new(None) };
}

/// Runs `work`; a panic is given back, and prints nothing.
pub fn run<T>(work: impl FnOnce() -> T) -> Result<T, Panic> {
    static HOOK: Once = Once::new();
    HOOK.call_once(silence_when_quiet);
    QUIET.set(true);
    LINE.set(None);
    let outcome = panic::catch_unwind(AssertUnwindSafe(work));
    QUIET.set(false);
    outcome.map_err(|payload| Panic {
        message: message(&*payload),
        place: LINE.get().and_then(place),
    })
}

fn silence_when_quiet() {
    let usual = panic::take_hook();
    panic::set_hook(Box::new(move |info| {
        if QUIET.get() {
            LINE.set(info.location().and_then(line));
        } else {
            usual(info);
        }
    }));
}

fn line(location: &Location) -> Option<u32> {
    location.file().ends_with(FILE).then(|| location.line())
}

fn place(line: u32) -> Option<Place> {
    let text = TEXT.lines().nth(line as usize - 1)?;
    let found = PLACES.iter().find(|(part, _)| text.contains(part));
    found.map(|(_, place)| *place)
}

fn message(payload: &(dyn Any + Send)) -> String {
    let text = payload.downcast_ref::<&str>().map(|s| (*s).to_string());
    let text = text.or_else(|| payload.downcast_ref::<String>().cloned());
    text.unwrap_or_else(|| "a panic without a message".into())
}
