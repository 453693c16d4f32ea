//! Vectors for refusals 1 to 4 alone: single inputs and the number that each gets.

use super::{Tally, names, spans};
use crate::checks::{self, Input, MOST_UNITS};
use crate::format::{Cell, Line, Rules, write_cells, write_job, write_prefixes, write_sheet};
use crate::make::STYLES;
use crate::random::Rng;
use crate::record::three_bytes;
use crate::{damage, edges, make};
use std::io::{self, Write};

const INPUTS: [Input; 4] = [Input::Job, Input::Sheet, Input::Cells, Input::Prefixes];

/// The kinds in turn; jobs twice, since they alone have five numbers.
const TURNS: [Input; 5] = [
    Input::Job,
    Input::Sheet,
    Input::Job,
    Input::Cells,
    Input::Prefixes,
];

/// An edge made by hand is written up to this length, whatever the longest is, so that
/// jobs of 4,096 and 4,097 units are always there.
const EDGE: usize = 8_192;

/// The turns of request 2.1, which adds to sheets and cells alone.
const SPAN_TURNS: [Input; 3] = [Input::Sheet, Input::Cells, Input::Sheet];

/// The turns of request 2.2, which adds to sheets; in cells its fields are refused.
const NAME_TURNS: [Input; 4] = [Input::Sheet, Input::Sheet, Input::Cells, Input::Sheet];

/// What is drawn: document 01's inputs, sheets and cells with K, G and V fields, or sheets at
/// whose end names wait, and cells.
#[derive(Clone, Copy)]
pub enum Drawn {
    Base,
    Spans,
    Names,
}

impl Drawn {
    /// The rules whose letters damage writes; a job has document 01's.
    fn letters(self, input: Input) -> Rules {
        match (input, self) {
            (Input::Job, _) => Rules::Base,
            (_, Drawn::Base | Drawn::Spans) => Rules::Spans,
            (_, Drawn::Names) => Rules::Names,
        }
    }

    fn turns(self) -> &'static [Input] {
        match self {
            Drawn::Base => &TURNS,
            Drawn::Spans => &SPAN_TURNS,
            Drawn::Names => &NAME_TURNS,
        }
    }

    /// The numbers that are reached; 2 of a sheet is for its V fields.
    fn numbers(self, input: Input) -> &'static [u8] {
        match (self, input) {
            (Drawn::Spans | Drawn::Names, Input::Sheet) => &[0, 1, 2, 3],
            _ => input.numbers(),
        }
    }

    fn by_hand(self, input: Input) -> Vec<Vec<u8>> {
        match self {
            Drawn::Base => edges::of(input),
            Drawn::Spans => spans::inputs_by_hand(input),
            Drawn::Names => names::inputs_by_hand(input),
        }
    }
}

/// Writes `count` checks: the edges made by hand, then random inputs of all kinds in
/// turn, as many for each number that a kind can get. Inputs longer than `longest` are
/// left out.
pub fn write(
    drawn: Drawn,
    seed: u64,
    count: usize,
    longest: usize,
    out: &mut impl Write,
) -> io::Result<Tally> {
    let mut rng = Rng::new(seed);
    let mut tally = Tally::default();
    let edges = INPUTS.iter().flat_map(|input| {
        let inputs = drawn.by_hand(*input).into_iter();
        inputs.map(|bytes| (*input, bytes))
    });
    let edges = edges.filter(|(_, bytes)| bytes.len() <= longest.max(EDGE));
    for (input, bytes) in edges.take(count) {
        write_check(input, &bytes, &mut tally, out)?;
    }
    let written: usize = tally.numbers.values().sum();
    let random = (0..).map(|turn| random(&mut rng, drawn, turn));
    let random = random.filter(|(_, bytes)| bytes.len() <= longest);
    for (input, bytes) in random.take(count - written) {
        write_check(input, &bytes, &mut tally, out)?;
    }
    Ok(tally)
}

/// The random input of a turn.
fn random(rng: &mut Rng, drawn: Drawn, turn: usize) -> (Input, Vec<u8>) {
    let turns = drawn.turns();
    let input = turns[turn % turns.len()];
    let numbers = drawn.numbers(input);
    let wanted = numbers[turn / turns.len() % numbers.len()];
    (input, with_number(rng, drawn, input, wanted))
}

fn write_check(
    input: Input,
    bytes: &[u8],
    tally: &mut Tally,
    out: &mut impl Write,
) -> io::Result<()> {
    let number = checks::number(input, bytes);
    *tally.numbers.entry(number).or_default() += 1;
    out.write_all(&[input as u8])?;
    out.write_all(&three_bytes(bytes.len()))?;
    out.write_all(bytes)?;
    out.write_all(&[number])
}

/// An input that gets the number: drawn until it does.
fn with_number(rng: &mut Rng, drawn: Drawn, input: Input, wanted: u8) -> Vec<u8> {
    loop {
        let bytes = candidate(rng, drawn, input, wanted);
        if checks::number(input, &bytes) == wanted {
            return bytes;
        }
    }
}

/// An input with the fault that the number is for, perhaps with faults of later numbers.
fn candidate(rng: &mut Rng, drawn: Drawn, input: Input, wanted: u8) -> Vec<u8> {
    let mut bytes = match (input, drawn) {
        (Input::Job, _) => job(rng, wanted),
        (Input::Sheet, Drawn::Base) => {
            let lines = lines(rng, wanted);
            write_sheet(&lines).expect("a small sheet")
        }
        (Input::Cells, Drawn::Base) => cells(rng, wanted),
        (Input::Sheet | Input::Cells, Drawn::Spans | Drawn::Names) => {
            spanned(rng, drawn, input, wanted)
        }
        (Input::Prefixes, _) => prefixes(rng, wanted),
    };
    if wanted == 1 && matches!(drawn, Drawn::Names) && rng.once_in(2) {
        damage::put_name(rng, &mut bytes);
    } else if wanted == 1 {
        damage::bytes(rng, drawn.letters(input), &mut bytes);
    }
    bytes
}

/// Is a fault of this number wanted? Always its own, sometimes a later one.
fn faulty(rng: &mut Rng, number: u8, wanted: u8) -> bool {
    wanted == number || (wanted != 0 && wanted < number && rng.once_in(5))
}

fn job(rng: &mut Rng, wanted: u8) -> Vec<u8> {
    let units = if faulty(rng, 4, wanted) {
        MOST_UNITS + 1 + rng.below(3)
    } else if rng.once_in(20) {
        MOST_UNITS - rng.below(2)
    } else {
        rng.below(60)
    };
    let mut job = make::job(rng, units);
    if faulty(rng, 2, wanted) {
        job.width = 0;
    }
    if faulty(rng, 3, wanted) {
        damage::spoil_job(rng, &mut job);
    }
    write_job(&job)
}

fn lines(rng: &mut Rng, wanted: u8) -> Vec<Line<Vec<u8>>> {
    let mut lines = make::lines(rng, 8, 4);
    if faulty(rng, 3, wanted) {
        damage::spoil_lines(rng, &mut lines);
    }
    lines
}

fn cells(rng: &mut Rng, wanted: u8) -> Vec<u8> {
    let count = rng.pick(&[0, 1, 2, 3, 3, 15, 16, 17]);
    let cell = |rng: &mut Rng| Cell {
        width: make::width(rng),
        span: None,
        lines: make::lines(rng, 8, 4),
    };
    let mut cells: Vec<_> = (0..count).map(|_| cell(rng)).collect();
    if count > 0 && faulty(rng, 2, wanted) {
        cells[rng.below(count)].width = 0;
    }
    if count > 0 && faulty(rng, 3, wanted) {
        let place = rng.below(count);
        damage::spoil_lines(rng, &mut cells[place].lines);
    }
    write_cells(&cells)
}

/// A sheet or cells with K, G and V fields, a sheet with names that wait if asked; its faults
/// are damage that the shape does not see.
fn spanned(rng: &mut Rng, drawn: Drawn, input: Input, wanted: u8) -> Vec<u8> {
    let mut bytes = match drawn {
        Drawn::Names => names::input(rng, input),
        _ => spans::input(rng, input),
    };
    while faulty(rng, 2, wanted) || faulty(rng, 3, wanted) {
        damage::value(rng, Rules::Spans, &mut bytes);
        if rng.once_in(4) {
            break;
        }
    }
    bytes
}

fn prefixes(rng: &mut Rng, wanted: u8) -> Vec<u8> {
    let count = rng.below(5);
    let style = rng.pick(&STYLES);
    let prefix = |rng: &mut Rng| {
        let bytes = rng.below(9);
        make::plain(rng, style, bytes)
    };
    let mut list: Vec<_> = (0..count).map(|_| prefix(rng)).collect();
    if count > 0 && faulty(rng, 3, wanted) {
        let place = rng.below(count);
        damage::spoil(rng, &mut list[place]);
    }
    write_prefixes(&list)
}
