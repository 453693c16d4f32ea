//! A child module of html2text's `render::text_renderer` (see build.rs), so that
//! it reaches the private types there: document 01's values go in, the crate's own
//! methods run, and its lines come out.

#![warn(dead_code, unused)]

use super::{
    BorderHoriz, BorderSegHoriz, LineSet, RenderLine, RenderOptions, SubRenderer, TaggedLine,
    TaggedLineElement, TaggedString, TextDecorator, TooNarrow, WrappedBlock,
};
use crate::WhiteSpace;
use crate::call::Sheet;
use crate::format::{Cell, Contents, Hanging, Hole, Job, Line, Part, Piece};
use crate::render::Renderer;
use std::fmt::Debug;
use std::{iter, str};

type Lent<'a> = Line<&'a [u8]>;
type LentSheet<'a> = Contents<&'a [u8]>;
type Owned = Line<String>;
type OwnedSheet = Contents<String>;

/// Runs a job: its block stands in a renderer, and `flush_wrapping` ends it. The renderer pads
/// nothing, for the block does.
pub(crate) fn block(job: &Job<&[u8]>) -> Result<OwnedSheet, TooNarrow> {
    let mut target = SubRenderer::new(usize::from(job.width), RenderOptions::default(), Numbers);
    target.wrapping = Some(filled(&job.map(|bytes| utf8(bytes)), |tag| vec![tag])?);
    target.flush_wrapping()?;
    Ok(sheet_out(target))
}

/// Runs a block alone, up to `into_lines`. The annotation is the tag.
pub(crate) fn wrapped(job: &Job<&str>) -> Result<Vec<Owned>, TooNarrow> {
    let lines = filled(job, |tag| tag)?.into_lines()?;
    Ok(lines
        .into_iter()
        .map(|line| text_out(line, |t| t))
        .collect())
}

/// A block that has a job's parts: `new`, then `add_text` or `add_element` a part.
fn filled<T>(job: &Job<&str>, tag: impl Fn(u8) -> T) -> Result<WrappedBlock<T>, TooNarrow>
where
    T: Clone + Eq + Debug + Default,
{
    let mut block = WrappedBlock::new(
        usize::from(job.width),
        job.pad,
        job.overflow,
        tag(job.annotation),
    );
    for part in &job.parts {
        match part {
            Part::Text {
                mode,
                first,
                continued,
                text,
            } => block.add_text(text, white_space(*mode), &tag(*first), &tag(*continued))?,
            Part::Name(name) => block.add_element(name_in(name)),
        }
    }
    Ok(block)
}

fn name_in<T>(name: &str) -> TaggedLineElement<T> {
    TaggedLineElement::FragmentStart(name.into())
}

fn white_space(mode: u8) -> WhiteSpace {
    match mode {
        0 => WhiteSpace::Normal,
        1 => WhiteSpace::Pre,
        _ => WhiteSpace::PreWrap,
    }
}

fn utf8(bytes: &[u8]) -> &str {
    str::from_utf8(bytes).expect("refusal 3 came before")
}

/// Runs `append_subrender`; the last prefix repeats if asked.
pub(crate) fn subrender(
    sheet: &Sheet,
    old: &LentSheet,
    guest: &LentSheet,
    prefixes: &[&[u8]],
    repeat_last: bool,
) -> OwnedSheet {
    let mut target = hung(sheet, old);
    let given = prefixes.iter().map(|prefix| utf8(prefix));
    let again = prefixes.last().filter(|_| repeat_last);
    let repeated = again.into_iter().flat_map(|last| iter::repeat(utf8(last)));
    let guest = hung(sheet, guest);
    let done = target.append_subrender(guest, given.chain(repeated));
    laid_out(target, done)
}

/// Runs `append_columns_with_borders`; the rowspan of a C field is 1.
pub(crate) fn columns(
    sheet: &Sheet,
    old: &LentSheet,
    cells: &[Cell<&[u8]>],
    collapse: bool,
) -> OwnedSheet {
    Columns::new(sheet, old, cells, collapse).run()
}

/// A call of `append_columns_with_borders` whose inputs stand in renderers.
pub(crate) struct Columns {
    target: SubRenderer<Numbers>,
    cells: Vec<(SubRenderer<Numbers>, usize)>,
    collapse: bool,
}

impl Columns {
    pub(crate) fn new(
        sheet: &Sheet,
        old: &LentSheet,
        cells: &[Cell<&[u8]>],
        collapse: bool,
    ) -> Columns {
        let rowspans = cells.iter().map(|cell| cell.span.map_or(1, usize::from));
        Columns {
            target: hung(sheet, old),
            cells: renderers(sheet, cells).zip(rowspans).collect(),
            collapse,
        }
    }

    pub(crate) fn run(mut self) -> OwnedSheet {
        let cells = self.cells;
        let done = self.target.append_columns_with_borders(cells, self.collapse);
        laid_out(self.target, done)
    }
}

/// Runs `append_vert_row`.
pub(crate) fn vert_row(sheet: &Sheet, old: &LentSheet, cells: &[Cell<&[u8]>]) -> OwnedSheet {
    let mut target = hung(sheet, old);
    let done = target.append_vert_row(renderers(sheet, cells));
    laid_out(target, done)
}

fn renderers(sheet: &Sheet, cells: &[Cell<&[u8]>]) -> impl Iterator<Item = SubRenderer<Numbers>> {
    cells
        .iter()
        .map(|cell| renderer(sheet, cell.width, &cell.lines))
}

/// A renderer that holds a sheet, names that wait and hanging cells too.
fn hung(sheet: &Sheet, contents: &LentSheet) -> SubRenderer<Numbers> {
    let mut renderer = renderer(sheet, sheet.width, &contents.lines);
    renderer.pending_frags = contents.names.iter().map(|n| name_in(utf8(n))).collect();
    renderer.overhang_cells = contents.hanging.iter().map(hanging_in).collect();
    renderer
}

fn hanging_in(cell: &Hanging<&[u8]>) -> LineSet<u8> {
    LineSet {
        pos: cell.position,
        width: usize::from(cell.width),
        rowspan: usize::from(cell.rows),
        lines: cell.lines.iter().map(line_in).collect(),
    }
}

/// A renderer that holds these lines; its tag is the call's annotation.
fn renderer(sheet: &Sheet, width: u8, lines: &[Lent]) -> SubRenderer<Numbers> {
    let options = RenderOptions {
        pad_block_width: sheet.pad,
        draw_borders: sheet.borders,
        ..RenderOptions::default()
    };
    let mut renderer = SubRenderer::new(usize::from(width), options, Numbers);
    renderer.ann_stack = vec![sheet.annotation];
    renderer.lines = lines.iter().map(line_in).collect();
    renderer
}

/// A line as it stands: neighbouring pieces with equal tags are not joined.
fn line_in(line: &Lent) -> RenderLine<Vec<u8>> {
    match line {
        Line::Text(pieces) => {
            let v: Vec<_> = pieces.iter().map(piece_in).collect();
            let len = v.iter().map(TaggedLineElement::width).sum();
            RenderLine::Text(TaggedLine { v, len })
        }
        Line::Border {
            tag,
            segments,
            holes,
        } => RenderLine::Line(BorderHoriz {
            segments: segments.iter().map(|s| SEGMENTS[usize::from(*s)]).collect(),
            tag: vec![*tag],
            holes: holes.iter().map(hole_in).collect(),
        }),
    }
}

fn hole_in(hole: &Hole<&[u8]>) -> (usize, TaggedLineElement<Vec<u8>>) {
    (hole.place, piece_in(&hole.piece))
}

fn piece_in(piece: &Piece<&[u8]>) -> TaggedLineElement<Vec<u8>> {
    match piece {
        Piece::Text { tag, text } => TaggedLineElement::Str(TaggedString {
            s: utf8(text).into(),
            tag: vec![*tag],
        }),
        Piece::Name(name) => name_in(utf8(name)),
    }
}

/// The sheet that a row call leaves.
fn laid_out(target: SubRenderer<Numbers>, done: Result<(), TooNarrow>) -> OwnedSheet {
    done.expect("a row call wraps nothing, so it is never TooNarrow");
    sheet_out(target)
}

/// What stands in a renderer in which no block is open.
fn sheet_out(target: SubRenderer<Numbers>) -> OwnedSheet {
    assert!(target.wrapping.is_none(), "no block is open");
    Contents {
        lines: target.lines.into_iter().map(line_out).collect(),
        names: target.pending_frags.into_iter().map(name_out).collect(),
        hanging: target.overhang_cells.into_iter().map(hanging_out).collect(),
    }
}

fn name_out(element: TaggedLineElement<Vec<u8>>) -> String {
    match element {
        TaggedLineElement::FragmentStart(name) => name,
        TaggedLineElement::Str(_) => unreachable!("only names wait"),
    }
}

fn hanging_out(cell: LineSet<u8>) -> Hanging<String> {
    let byte = |number| u8::try_from(number).expect("a filling cell never hangs on");
    Hanging {
        position: cell.pos,
        width: byte(cell.width),
        rows: byte(cell.rowspan),
        lines: cell.lines.into_iter().map(line_out).collect(),
    }
}

fn line_out(line: RenderLine<Vec<u8>>) -> Owned {
    match line {
        RenderLine::Text(text) => text_out(text, one_tag),
        RenderLine::Line(border) => Line::Border {
            tag: one_tag(border.tag),
            segments: border.segments.iter().map(|s| *s as u8).collect(),
            holes: border.holes.into_iter().map(hole_out).collect(),
        },
    }
}

fn hole_out((place, element): (usize, TaggedLineElement<Vec<u8>>)) -> Hole<String> {
    let piece = piece_out(element, one_tag);
    Hole { place, piece }
}

fn text_out<T>(line: TaggedLine<T>, tag: impl Fn(T) -> u8) -> Owned {
    let pieces = line.into_iter().map(|element| piece_out(element, &tag));
    Line::Text(pieces.collect())
}

fn piece_out<T>(element: TaggedLineElement<T>, tag: impl Fn(T) -> u8) -> Piece<String> {
    match element {
        TaggedLineElement::Str(piece) => Piece::Text {
            tag: tag(piece.tag),
            text: piece.s,
        },
        TaggedLineElement::FragmentStart(name) => Piece::Name(name),
    }
}

fn one_tag(tags: Vec<u8>) -> u8 {
    assert_eq!(tags.len(), 1, "a tag list is one annotation here");
    tags[0]
}

/// The segments by document 01's numbers, which are the enum's order.
const SEGMENTS: [BorderSegHoriz; 12] = [
    BorderSegHoriz::Horiz,
    BorderSegHoriz::JoinAbove,
    BorderSegHoriz::JoinBelow,
    BorderSegHoriz::JoinCross,
    BorderSegHoriz::Vert,
    BorderSegHoriz::HorizVert,
    BorderSegHoriz::JoinLeft,
    BorderSegHoriz::JoinRight,
    BorderSegHoriz::CornerTL,
    BorderSegHoriz::CornerTR,
    BorderSegHoriz::CornerBL,
    BorderSegHoriz::CornerBR,
];

/// The mark that the crate draws for a segment number.
pub(crate) fn mark(segment: u8) -> char {
    BorderHoriz::<Vec<u8>>::seg_to_char(SEGMENTS[usize::from(segment)])
}

/// What a segment becomes by `join_above` and by `join_below`, and what Horiz becomes
/// where it is merged, from below and from above.
pub(crate) fn joins(segment: u8) -> [u8; 4] {
    let [mut above, mut below] = [segment, segment].map(single);
    above.join_above(0);
    below.join_below(0);
    let [mut from_below, mut from_above] = [0, 0].map(single);
    from_below.merge_from_below(&single(segment), 0);
    from_above.merge_from_above(&single(segment), 0);
    [above, below, from_below, from_above].map(|border| border.segments[0] as u8)
}

/// The mark that continues a segment upwards: a vertical line or a space.
pub(crate) fn mark_above(segment: u8) -> String {
    single(segment).to_vertical_lines_above()
}

fn single(segment: u8) -> BorderHoriz<()> {
    BorderHoriz::new_type(1, SEGMENTS[usize::from(segment)], ())
}

/// A decorator whose annotations are numbers. Row calls decorate nothing.
#[derive(Debug)]
struct Numbers;

type Decoration = (String, u8);

const UNUSED: &str = "row calls decorate nothing";

impl TextDecorator for Numbers {
    type Annotation = u8;

    fn decorate_link_start(&mut self, _: &str) -> Decoration {
        unreachable!("{UNUSED}")
    }
    fn decorate_link_end(&mut self) -> String {
        unreachable!("{UNUSED}")
    }
    fn decorate_em_start(&self) -> Decoration {
        unreachable!("{UNUSED}")
    }
    fn decorate_em_end(&self) -> String {
        unreachable!("{UNUSED}")
    }
    fn decorate_strong_start(&self) -> Decoration {
        unreachable!("{UNUSED}")
    }
    fn decorate_strong_end(&self) -> String {
        unreachable!("{UNUSED}")
    }
    fn decorate_strikeout_start(&self) -> Decoration {
        unreachable!("{UNUSED}")
    }
    fn decorate_strikeout_end(&self) -> String {
        unreachable!("{UNUSED}")
    }
    fn decorate_code_start(&self) -> Decoration {
        unreachable!("{UNUSED}")
    }
    fn decorate_code_end(&self) -> String {
        unreachable!("{UNUSED}")
    }
    fn decorate_preformat_first(&self) -> u8 {
        unreachable!("{UNUSED}")
    }
    fn decorate_preformat_cont(&self) -> u8 {
        unreachable!("{UNUSED}")
    }
    fn decorate_image(&mut self, _: &str, _: &str) -> Decoration {
        unreachable!("{UNUSED}")
    }
    fn header_prefix(&self, _: usize) -> String {
        unreachable!("{UNUSED}")
    }
    fn quote_prefix(&self) -> String {
        unreachable!("{UNUSED}")
    }
    fn unordered_item_prefix(&self) -> String {
        unreachable!("{UNUSED}")
    }
    fn ordered_item_prefix(&self, _: i64) -> String {
        unreachable!("{UNUSED}")
    }
    fn make_subblock_decorator(&self) -> Self {
        unreachable!("{UNUSED}")
    }
}
